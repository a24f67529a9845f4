//! The report (sections 5, 6 and 13 of docs/RULES.md).

use crate::graph::{Fault, Graph};
use crate::models::Pile;
use crate::recording::{read, Refusal};
use crate::verdict::{judge, Verdict};

/// The report on the bytes of a recording: what `check` prints.
pub fn report(bytes: &[u8], most_tried: u64) -> String {
    match read(bytes) {
        Ok(recording) => report_on(&recording.graph, &recording.pile, most_tried),
        Err(refusal) => denial(&refusal),
    }
}

/// The report on a closed graph.
pub fn report_on(graph: &Graph, pile: &Pile, most_tried: u64) -> String {
    let events = graph.events.len();
    let writes = graph.writes().len();
    match judge(graph, pile, most_tried) {
        Err(told) => denial(&Refusal { fault: told.fault, line: 0, place: told.position }),
        Ok(Verdict::Nowhere) => line('N', graph.open_writes().len(), events, writes),
        Ok(Verdict::Cycle { order, events: cycle }) => {
            line('X', order, cycle.len(), events) + &numbered('C', order, &cycle)
        }
        Ok(Verdict::Allowed { lists, placements }) => {
            let mut text = line('A', lists.len(), events, writes);
            for (order, list) in lists.iter().enumerate() {
                text += &numbered('O', order, list);
            }
            for (location, order) in placements.iter().enumerate() {
                text += &numbered('M', location, order);
            }
            text
        }
    }
}

pub fn denial(refusal: &Refusal) -> String {
    let fault: Fault = refusal.fault;
    line('D', fault as usize, refusal.line, refusal.place)
}

fn line(letter: char, first: usize, second: usize, third: usize) -> String {
    format!("{letter}{first:4}{second:4}{third:4}\n")
}

/// One line for each event of a row, with its position counted from 0.
fn numbered(letter: char, first: usize, row: &[usize]) -> String {
    row.iter().enumerate().map(|(position, &event)| line(letter, first, position, event)).collect()
}

/// The 64-bit FNV-1a digest.
pub fn digest(bytes: &[u8]) -> u64 {
    bytes.iter().fold(0xcbf2_9ce4_8422_2325, |state, &byte| {
        (state ^ u64::from(byte)).wrapping_mul(0x100000001b3)
    })
}
