//! Reading a recording, line by line, into a graph and the settings of its H line (sections 3 and 4 of docs/RULES.md).

use crate::graph::{deny, Denial, Event, Fault, Graph, Label};
use crate::models::{Model, Pile};
use std::collections::BTreeSet;

/// Only so many bytes of a recording can matter.
pub const MOST_BYTES: usize = 34_850;
const MOST_LINES: usize = 1_024;

/// The columns of the five fields, the first counted as 1 and both inside.
const FIELDS: [(usize, usize); 5] = [(2, 5), (6, 9), (10, 20), (21, 31), (32, 33)];

/// A denial with its line (0: no line of the file) and its place (the column, for a fault on a line).
#[derive(Debug)]
pub struct Refusal {
    pub fault: Fault,
    pub line: usize,
    pub place: usize,
}

pub struct Recording {
    pub graph: Graph,
    pub pile: Pile,
}

/// Which fields each kind of line fills; an unknown letter has no layout.
fn layout(letter: u8) -> Option<[bool; 5]> {
    match letter {
        b'H' | b'U' => Some([true, true, true, true, true]),
        b'R' => Some([true, true, true, false, true]),
        b'W' => Some([true, true, false, true, true]),
        b'F' => Some([true, false, false, false, true]),
        b'L' | b'P' => Some([true, true, false, false, false]),
        b'Z' => Some([false, false, false, false, false]),
        _ => None,
    }
}

/// The lines of the file, each with its newline where it has one.
fn lines(bytes: &[u8]) -> Vec<&[u8]> {
    bytes.split_inclusive(|&byte| byte == b'\n').collect()
}

fn field(line: &[u8], index: usize) -> &[u8] {
    let (first, last) = FIELDS[index];
    &line[first - 1..last]
}

fn is_filled(field: &[u8]) -> bool {
    field.iter().any(|&byte| byte != b' ')
}

/// The number in a filled field: spaces, then digits without a leading zero, up to 2^32 - 1.
fn number(field: &[u8]) -> Option<u64> {
    let digits: Vec<u8> = field.iter().copied().skip_while(|&byte| byte == b' ').collect();
    if !digits.iter().all(u8::is_ascii_digit) || (digits.len() > 1 && digits[0] == b'0') {
        return None;
    }
    let value = digits.iter().fold(0, |value, digit| 10 * value + u64::from(digit - b'0'));
    (value <= 4_294_967_295).then_some(value)
}

/// The tests of a line as such: Line, Frame, Blank and Number. Gives the letter and the five numbers.
fn take_apart(line: &[u8], count: usize, ended: bool) -> Result<(u8, [Option<u64>; 5]), Denial> {
    let well_formed = line.len() == 34 && line[33] == b'\n';
    let Some(wanted) = well_formed.then(|| layout(line[0])).flatten() else {
        return deny(Fault::Line, 0);
    };
    if (line[0] == b'H') != (count == 1) || ended || count > MOST_LINES {
        return deny(Fault::Frame, 0);
    }
    for index in 0..5 {
        if is_filled(field(line, index)) != wanted[index] {
            return deny(Fault::Blank, index + 1);
        }
    }
    let mut numbers = [None; 5];
    for index in 0..5 {
        if wanted[index] {
            match number(field(line, index)) {
                Some(value) => numbers[index] = Some(value),
                None => return deny(Fault::Number, index + 1),
            }
        }
    }
    Ok((line[0], numbers))
}

/// The graph and the pile that an H line names.
fn header(numbers: [Option<u64>; 5]) -> Result<Recording, Denial> {
    let [threads, locations, strong, barrier, model] = numbers.map(|n| n.unwrap_or(0));
    if !(1..=16).contains(&threads) {
        return deny(Fault::Range, 1);
    }
    if !(1..=16).contains(&locations) {
        return deny(Fault::Range, 2);
    }
    if strong >= 1 << threads {
        return deny(Fault::Range, 3);
    }
    if barrier > 1 {
        return deny(Fault::Range, 4);
    }
    let Some(model) = Model::of_number(model) else {
        return deny(Fault::Range, 5);
    };
    // Bit t-1 of the strong set stands for thread t.
    let strong: BTreeSet<usize> = (1..=threads as usize).filter(|t| (strong >> (t - 1)) & 1 == 1).collect();
    let graph = Graph::open(threads as usize, locations as usize);
    Ok(Recording { graph, pile: Pile { model, barrier: barrier == 1, strong } })
}

/// One entry, of any letter but H and Z.
fn enter(graph: &mut Graph, letter: u8, numbers: [Option<u64>; 5]) -> Result<(), Denial> {
    let place = |index: usize| numbers[index].map(|n| n as usize);
    let (first, second) = (place(0).unwrap_or(0), place(1).unwrap_or(0));
    let label = match letter {
        b'L' => return graph.link(first, second),
        b'P' => return graph.place(first, second),
        b'R' => Label::Read,
        b'W' => Label::Write,
        b'U' => Label::Update,
        _ => Label::Fence,
    };
    graph.record(Event {
        thread: first,
        label,
        location: place(1),
        value_read: numbers[2],
        value_written: numbers[3],
        mode: numbers[4].unwrap_or(0),
    })
}

/// Reads a whole recording. The first denial ends the reading.
pub fn read(bytes: &[u8]) -> Result<Recording, Refusal> {
    let bytes = &bytes[..bytes.len().min(MOST_BYTES)];
    let mut recording: Option<Recording> = None;
    let mut ended = false;
    let lines = lines(bytes);
    for (index, line) in lines.iter().enumerate() {
        let count = index + 1;
        let told = take_apart(line, count, ended).and_then(|(letter, numbers)| {
            match &mut recording {
                None => recording = Some(header(numbers)?),
                Some(_) if letter == b'Z' => ended = true,
                Some(recording) => enter(&mut recording.graph, letter, numbers)?,
            }
            Ok(())
        });
        if let Err(denial) = told {
            return Err(Refusal { fault: denial.fault, line: count, place: column(denial.position) });
        }
    }
    match recording {
        Some(recording) if ended => Ok(recording),
        _ => Err(Refusal { fault: Fault::Frame, line: lines.len() + 1, place: 0 }),
    }
}

/// The first column of the field at a position.
fn column(position: usize) -> usize {
    if position == 0 { 0 } else { FIELDS[position - 1].0 }
}
