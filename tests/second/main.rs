//! A second checker, written from docs/RULES.md alone and naive on purpose, to compare the proved one with.
//!
//! `second < recording` writes the report. `second --many < packed` writes a line for each of many recordings.
//! `second --table FILE...` writes a table of verdicts under all models. `second --all < recording` tries every full
//! modification order, however many there are, and `second --lazy < recording` walks them up to the first that serves;
//! both write the report too.

mod graph;
mod models;
mod recording;
mod relations;
mod report;
mod table;
mod verdict;

use std::io::{self, Read, Write};
use std::process::ExitCode;

fn main() -> ExitCode {
    match run() {
        Ok(()) => ExitCode::SUCCESS,
        Err(error) => {
            eprintln!("second: {error}");
            ExitCode::FAILURE
        }
    }
}

fn run() -> io::Result<()> {
    let arguments: Vec<String> = std::env::args().skip(1).collect();
    let words: Vec<&str> = arguments.iter().map(String::as_str).collect();
    match words.as_slice() {
        [] => one(verdict::MOST_TRIED),
        ["--all"] => one(u64::MAX),
        ["--lazy"] => one(0),
        ["--many"] => many(),
        ["--table", files @ ..] => table(files),
        _ => Err(io::Error::other("usage: second [--all | --lazy | --many | --table FILE...]")),
    }
}

/// The report on the recording at standard input.
fn one(most_tried: u64) -> io::Result<()> {
    let mut bytes = vec![];
    io::stdin().take(recording::MOST_BYTES as u64).read_to_end(&mut bytes)?;
    io::stdout().write_all(report::report(&bytes, most_tried).as_bytes())
}

/// For each recording of a packed file: its title line, then the report's first line and the report's digest.
fn many() -> io::Result<()> {
    let mut bytes = vec![];
    io::stdin().read_to_end(&mut bytes)?;
    let mut output = io::BufWriter::new(io::stdout().lock());
    for (title, recording) in unpack(&bytes)? {
        let report = report::report(&recording, verdict::MOST_TRIED);
        let first = report.lines().next().unwrap_or("");
        output.write_all(title)?;
        writeln!(output, "\n{first} {:016x}", report::digest(report.as_bytes()))?;
    }
    output.flush()
}

/// Each title line, without its newline, and the recording behind it.
fn unpack(bytes: &[u8]) -> io::Result<Vec<(&[u8], Vec<u8>)>> {
    let mut packed: Vec<(&[u8], Vec<u8>)> = vec![];
    for line in bytes.split_inclusive(|&byte| byte == b'\n') {
        if line[0] == b'#' {
            packed.push((line.strip_suffix(b"\n").unwrap_or(line), vec![]));
        } else {
            let (_, recording) = packed.last_mut().ok_or_else(|| io::Error::other("a packed file begins with #"))?;
            recording.extend(line);
        }
    }
    Ok(packed)
}

/// The table of the recordings in the files.
fn table(files: &[&str]) -> io::Result<()> {
    let mut output = io::BufWriter::new(io::stdout().lock());
    output.write_all(table::head().as_bytes())?;
    for file in files {
        output.write_all(table::row_of(file, &std::fs::read(file)?).as_bytes())?;
    }
    output.flush()
}
