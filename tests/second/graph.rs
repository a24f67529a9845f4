//! The execution graph, and what it denies (sections 1, 2 and 3 of docs/RULES.md).

use std::collections::BTreeMap;

pub const MOST_EVENTS: usize = 256;

/// A denial's number.
#[derive(Clone, Copy, Debug, PartialEq, Eq)]
pub enum Fault {
    Range = 1,
    Mode = 2,
    Full = 3,
    Kind = 4,
    Site = 5,
    Value = 6,
    Twice = 7,
    Loose = 8,
    Unread = 9,
    Wide = 11,
    Line = 13,
    Frame = 14,
    Blank = 15,
    Number = 16,
}

/// A denial by the graph: its number, and the position of the argument at fault (0 for none).
#[derive(Clone, Copy, Debug)]
pub struct Denial {
    pub fault: Fault,
    pub position: usize,
}

pub fn deny<T>(fault: Fault, position: usize) -> Result<T, Denial> {
    Err(Denial { fault, position })
}

#[derive(Clone, Copy, Debug, PartialEq, Eq)]
pub enum Label {
    Read,
    Write,
    Update,
    Fence,
}

/// One event. A number that its label lacks is `None`.
#[derive(Clone, Debug)]
pub struct Event {
    pub thread: usize,
    pub label: Label,
    pub location: Option<usize>,
    pub value_read: Option<u64>,
    pub value_written: Option<u64>,
    pub mode: u64,
}

impl Event {
    /// A read in the wide sense: a plain read or an update.
    pub fn is_read(&self) -> bool {
        matches!(self.label, Label::Read | Label::Update)
    }

    /// A write in the wide sense: a plain write or an update.
    pub fn is_write(&self) -> bool {
        matches!(self.label, Label::Write | Label::Update)
    }

    pub fn is_plain_read(&self) -> bool {
        self.label == Label::Read
    }

    pub fn is_plain_write(&self) -> bool {
        self.label == Label::Write
    }

    /// A fence of mode sc.
    pub fn is_sc_fence(&self) -> bool {
        self.label == Label::Fence && self.mode == 5
    }

    fn mode_is_allowed(&self) -> bool {
        match self.label {
            Label::Read => [0, 1, 2, 5].contains(&self.mode),
            Label::Write => [0, 1, 3, 5].contains(&self.mode),
            Label::Update => [1, 2, 3, 4, 5].contains(&self.mode),
            Label::Fence => [2, 3, 4, 5].contains(&self.mode),
        }
    }
}

/// For each location, its placed writes in modification order.
pub type Placements = Vec<Vec<usize>>;

pub struct Graph {
    pub threads: usize,
    pub locations: usize,
    pub events: Vec<Event>,
    /// From each linked read to its source.
    pub sources: BTreeMap<usize, usize>,
    pub placements: Placements,
}

impl Graph {
    /// The graph that holds the initial writes alone, each of them placed.
    pub fn open(threads: usize, locations: usize) -> Graph {
        let initial = |location| Event {
            thread: 0,
            label: Label::Write,
            location: Some(location),
            value_read: None,
            value_written: Some(0),
            mode: 0,
        };
        Graph {
            threads,
            locations,
            events: (0..locations).map(initial).collect(),
            sources: BTreeMap::new(),
            placements: (0..locations).map(|location| vec![location]).collect(),
        }
    }

    pub fn is_initial(&self, event: usize) -> bool {
        self.events[event].thread == 0
    }

    pub fn is_placed(&self, write: usize) -> bool {
        self.placements.iter().any(|order| order.contains(&write))
    }

    /// The writes of the whole graph, initial ones and updates too.
    pub fn writes(&self) -> Vec<usize> {
        (0..self.events.len()).filter(|&e| self.events[e].is_write()).collect()
    }

    /// The recorded writes that are not placed, in rising number.
    pub fn open_writes(&self) -> Vec<usize> {
        self.writes().into_iter().filter(|&w| !self.is_placed(w)).collect()
    }

    /// The lowest read without a source.
    pub fn unlinked_read(&self) -> Option<usize> {
        (0..self.events.len()).find(|&e| self.events[e].is_read() && !self.sources.contains_key(&e))
    }

    pub fn record(&mut self, event: Event) -> Result<(), Denial> {
        if event.thread < 1 || event.thread > self.threads {
            return deny(Fault::Range, 1);
        }
        if event.location.is_some_and(|location| location >= self.locations) {
            return deny(Fault::Range, 2);
        }
        if !event.mode_is_allowed() {
            return deny(Fault::Mode, 5);
        }
        if self.events.len() == MOST_EVENTS {
            return deny(Fault::Full, 0);
        }
        self.events.push(event);
        Ok(())
    }

    pub fn link(&mut self, read: usize, source: usize) -> Result<(), Denial> {
        self.both_stand(read, source)?;
        if !self.events[read].is_read() {
            return deny(Fault::Kind, 1);
        }
        if !self.events[source].is_write() {
            return deny(Fault::Kind, 2);
        }
        self.same_site(read, source)?;
        if self.events[read].value_read != self.events[source].value_written {
            return deny(Fault::Value, 2);
        }
        if self.sources.contains_key(&read) {
            return deny(Fault::Twice, 1);
        }
        self.sources.insert(read, source);
        Ok(())
    }

    pub fn place(&mut self, write: usize, followed: usize) -> Result<(), Denial> {
        self.both_stand(write, followed)?;
        if !self.events[write].is_write() {
            return deny(Fault::Kind, 1);
        }
        if !self.events[followed].is_write() {
            return deny(Fault::Kind, 2);
        }
        self.same_site(write, followed)?;
        if self.is_placed(write) {
            return deny(Fault::Twice, 1);
        }
        for order in &mut self.placements {
            if let Some(place) = order.iter().position(|&w| w == followed) {
                order.insert(place + 1, write);
                return Ok(());
            }
        }
        deny(Fault::Loose, 2)
    }

    fn both_stand(&self, first: usize, second: usize) -> Result<(), Denial> {
        if first >= self.events.len() {
            return deny(Fault::Range, 1);
        }
        if second >= self.events.len() {
            return deny(Fault::Range, 2);
        }
        Ok(())
    }

    fn same_site(&self, first: usize, second: usize) -> Result<(), Denial> {
        if self.events[first].location != self.events[second].location {
            return deny(Fault::Site, 2);
        }
        Ok(())
    }
}
