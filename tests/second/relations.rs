//! Relations as plain sets of pairs (section 7 of docs/RULES.md).

use crate::graph::{Graph, Placements};
use std::collections::BTreeSet;

pub type Relation = BTreeSet<(usize, usize)>;

/// Program order.
pub fn po(graph: &Graph) -> Relation {
    pairs(graph, |a, b| {
        let same_thread = graph.events[a].thread == graph.events[b].thread;
        (same_thread && a < b) || (graph.is_initial(a) && !graph.is_initial(b))
    })
}

/// Reads-from: from each source to its read.
pub fn rf(graph: &Graph) -> Relation {
    graph.sources.iter().map(|(&read, &source)| (source, read)).collect()
}

/// Modification order: the pairs of writes placed at one location.
pub fn mo(placements: &Placements) -> Relation {
    let mut pairs = Relation::new();
    for order in placements {
        for (place, &a) in order.iter().enumerate() {
            for &b in &order[place + 1..] {
                pairs.insert((a, b));
            }
        }
    }
    pairs
}

/// Reads-before: from a read to every write behind its source, but never to itself.
pub fn rb(rf: &Relation, mo: &Relation) -> Relation {
    let mut pairs = Relation::new();
    for &(source, read) in rf {
        for write in after(mo, source) {
            if read != write {
                pairs.insert((read, write));
            }
        }
    }
    pairs
}

/// Synchronises-with: rf from a releasing write to an acquiring read.
pub fn sw(graph: &Graph) -> Relation {
    let releasing = |e: usize| [3, 4, 5].contains(&graph.events[e].mode);
    let acquiring = |e: usize| [2, 4, 5].contains(&graph.events[e].mode);
    rf(graph).into_iter().filter(|&(source, read)| releasing(source) && acquiring(read)).collect()
}

/// The pairs whose two events access one location.
pub fn at_one_location(graph: &Graph, relation: &Relation) -> Relation {
    let location = |e: usize| graph.events[e].location;
    relation.iter().copied().filter(|&(a, b)| location(a).is_some() && location(a) == location(b)).collect()
}

/// One or more steps of a relation: pairs are lengthened by one step until nothing new comes.
pub fn plus(relation: &Relation) -> Relation {
    let mut closure = relation.clone();
    let mut fresh = relation.clone();
    while !fresh.is_empty() {
        let mut longer = Relation::new();
        for &(a, b) in &fresh {
            for c in after(relation, b) {
                if !closure.contains(&(a, c)) {
                    longer.insert((a, c));
                }
            }
        }
        closure.extend(&longer);
        fresh = longer;
    }
    closure
}

pub fn union(a: &Relation, b: &Relation) -> Relation {
    a.union(b).copied().collect()
}

/// All events that the relation leads to from one event, in rising number.
pub fn after(relation: &Relation, event: usize) -> impl Iterator<Item = usize> + '_ {
    relation.range((event, 0)..(event + 1, 0)).map(|&(_, b)| b)
}

/// The pairs of events of a graph that hold a condition.
fn pairs(graph: &Graph, holds: impl Fn(usize, usize) -> bool) -> Relation {
    let mut pairs = Relation::new();
    for a in 0..graph.events.len() {
        for b in 0..graph.events.len() {
            if holds(a, b) {
                pairs.insert((a, b));
            }
        }
    }
    pairs
}
