//! The table: one row a recording, one column a model with or without a layer.

use crate::models::{Model, Pile};
use crate::recording::read;
use crate::report::report_on;
use crate::verdict::MOST_TRIED;
use std::collections::BTreeSet;
use std::path::Path;

const NAME_WIDTH: usize = 28;
const COLUMN_WIDTH: usize = 6;
const MODELS: [(&str, Model); 5] =
    [("COH", Model::Coh), ("C11", Model::C11), ("RA", Model::Ra), ("TSO", Model::Tso), ("SC", Model::Sc)];

/// A column's name, its model, and which layer it has.
struct Column {
    name: String,
    model: Model,
    barrier: bool,
    strong: bool,
}

/// The five models; the five with the barrier layer; all but SC with the strong layer for all threads.
fn columns() -> Vec<Column> {
    let mut columns = vec![];
    for (ending, barrier, strong) in [("", false, false), ("+b", true, false), ("+s", false, true)] {
        for (name, model) in MODELS {
            if !(strong && model == Model::Sc) {
                columns.push(Column { name: format!("{name}{ending}"), model, barrier, strong });
            }
        }
    }
    columns
}

pub fn head() -> String {
    row("", columns().into_iter().map(|column| column.name))
}

/// The row of one recording. A recording that cannot be read is D in every column.
pub fn row_of(path: &str, bytes: &[u8]) -> String {
    let name = Path::new(path).file_stem().map_or(String::new(), |stem| stem.to_string_lossy().into_owned());
    let recording = read(bytes);
    let letter = |column: Column| match &recording {
        Err(_) => "D".to_string(),
        Ok(recording) => {
            let threads = if column.strong { recording.graph.threads } else { 0 };
            let strong: BTreeSet<usize> = (1..=threads).collect();
            let pile = Pile { model: column.model, barrier: column.barrier, strong };
            report_on(&recording.graph, &pile, MOST_TRIED)[..1].to_string()
        }
    };
    row(&name, columns().into_iter().map(letter))
}

fn row(name: &str, words: impl Iterator<Item = String>) -> String {
    let words: String = words.map(|word| format!("{word:>COLUMN_WIDTH$}")).collect();
    format!("{name:NAME_WIDTH$}{words}\n")
}
