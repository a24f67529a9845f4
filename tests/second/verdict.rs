//! The verdict (section 11 of docs/RULES.md).

use crate::graph::{deny, Denial, Fault, Graph, Placements};
use crate::models::{Orders, Pile};
use crate::relations::{after, Relation};
use std::collections::BTreeMap;

const MOST_OPEN: usize = 8;
const MOST_AT_LOCATION: usize = 16;

/// Up to so many full modification orders are all tried; where there are more, they are walked in the order of
/// section 11 up to the first that serves.
pub const MOST_TRIED: u64 = 720;

pub enum Verdict {
    Cycle { order: usize, events: Vec<usize> },
    Nowhere,
    Allowed { lists: Vec<Vec<usize>>, placements: Placements },
}

/// Judges a closed graph. `most_tried` is `MOST_TRIED`, but for tests that compare the two ways.
pub fn judge(graph: &Graph, pile: &Pile, most_tried: u64) -> Result<Verdict, Denial> {
    if let Some(read) = graph.unlinked_read() {
        return deny(Fault::Unread, read);
    }
    if is_wide(graph) {
        return deny(Fault::Wide, 0);
    }
    let orders = Orders::of(graph, pile);
    for k in 0..orders.count() {
        let order = orders.order(k, &graph.placements);
        if let Some(events) = shortest_cycle(graph, &order) {
            return Ok(Verdict::Cycle { order: k, events });
        }
    }
    let shown = if count_full_orders(graph) <= most_tried {
        first_of_all(graph, &orders)
    } else {
        first_found(graph, &orders, &graph.placements, &graph.open_writes())
    };
    Ok(match shown {
        None => Verdict::Nowhere,
        Some(placements) => {
            let list = |k| list(graph, &orders.order(k, &placements)).expect("a serving order has no cycle");
            Verdict::Allowed { lists: (0..orders.count()).map(list).collect(), placements }
        }
    })
}

fn is_wide(graph: &Graph) -> bool {
    let open = graph.open_writes();
    let at = |location: usize, write: usize| graph.events[write].location == Some(location);
    let crowded = |location: usize| {
        let recorded = graph.writes().into_iter().filter(|&w| at(location, w) && !graph.is_initial(w)).count();
        open.iter().any(|&w| at(location, w)) && recorded > MOST_AT_LOCATION
    };
    open.len() > MOST_OPEN || (0..graph.locations).any(crowded)
}

/// Whether full placements serve: every order of the model, and so its list, can be finished.
fn serves(graph: &Graph, orders: &Orders, placements: &Placements) -> bool {
    (0..orders.count()).all(|k| list(graph, &orders.order(k, placements)).is_some())
}

// The plain way: every full modification order is made and tried whole, and the one to show is chosen afterwards.

/// Of all full modification orders that serve, the one with the smallest places.
fn first_of_all(graph: &Graph, orders: &Orders) -> Option<Placements> {
    all_full_orders(graph)
        .into_iter()
        .filter(|placements| serves(graph, orders, placements))
        .min_by_key(|placements| places(graph, placements))
}

/// The place of each open write, in rising number: how many writes stand before it at its location, without the open
/// writes of higher number.
fn places(graph: &Graph, placements: &Placements) -> Vec<usize> {
    let open = graph.open_writes();
    let place = |&write: &usize| {
        let order = placements.iter().find(|order| order.contains(&write)).expect("a full order holds every write");
        order.iter().take_while(|&&w| w != write).filter(|w| !open.contains(w) || **w < write).count()
    };
    open.iter().map(place).collect()
}

/// Every full modification order that extends the placements: each way at one location with each at the others.
fn all_full_orders(graph: &Graph) -> Vec<Placements> {
    let mut all: Vec<Placements> = vec![vec![]];
    for location in 0..graph.locations {
        let (initial, recorded) = graph.placements[location].split_first().expect("the initial write is placed");
        let mut ways = vec![];
        merge(vec![*initial], recorded, &open_at(graph, location), &mut ways);
        let longer = |start: &Placements| -> Vec<Placements> {
            ways.iter().map(|way| start.iter().chain([way]).cloned().collect()).collect()
        };
        all = all.iter().flat_map(longer).collect();
    }
    all
}

/// All ways to go on from a start: with the next recorded write, or with any open write that is left.
fn merge(start: Vec<usize>, recorded: &[usize], open: &[usize], ways: &mut Vec<Vec<usize>>) {
    if recorded.is_empty() && open.is_empty() {
        ways.push(start);
        return;
    }
    let with = |write: usize| start.iter().copied().chain([write]).collect();
    if let Some((&next, rest)) = recorded.split_first() {
        merge(with(next), rest, open, ways);
    }
    for &next in open {
        let rest: Vec<usize> = open.iter().copied().filter(|&w| w != next).collect();
        merge(with(next), recorded, &rest, ways);
    }
}

fn open_at(graph: &Graph, location: usize) -> Vec<usize> {
    graph.open_writes().into_iter().filter(|&w| graph.events[w].location == Some(location)).collect()
}

/// How many full modification orders extend the placements: an open write put among n writes has n places, as nothing
/// stands before the initial write.
fn count_full_orders(graph: &Graph) -> u64 {
    let mut count = 1;
    for location in 0..graph.locations {
        let placed = graph.placements[location].len();
        for added in 0..open_at(graph, location).len() {
            count *= (placed + added) as u64;
        }
    }
    count
}

// The lazy way, for graphs with very many full modification orders: the lowest open write takes the smallest place,
// then the next one, so full orders come in the order of section 11 and the first that serves is the one to show. As
// pairs only come with more placements, a start that has a cycle already is left at once.

fn first_found(graph: &Graph, orders: &Orders, placements: &Placements, open: &[usize]) -> Option<Placements> {
    if !serves(graph, orders, placements) {
        return None;
    }
    let Some((&write, rest)) = open.split_first() else {
        return Some(placements.clone());
    };
    let location = graph.events[write].location.expect("a write has a location");
    (1..=placements[location].len()).find_map(|place| {
        let mut longer = placements.clone();
        longer[location].insert(place, write);
        first_found(graph, orders, &longer, rest)
    })
}

/// All events, each time the lowest whose predecessors are all listed already; none if the order has a cycle.
pub fn list(graph: &Graph, order: &Relation) -> Option<Vec<usize>> {
    let mut before = vec![vec![]; graph.events.len()];
    for &(a, b) in order {
        before[b].push(a);
    }
    let mut listed = vec![false; graph.events.len()];
    let mut list = vec![];
    while list.len() < graph.events.len() {
        let ready = |&e: &usize| !listed[e] && before[e].iter().all(|&a| listed[a]);
        let next = (0..graph.events.len()).find(ready)?;
        listed[next] = true;
        list.push(next);
    }
    Some(list)
}

/// A shortest cycle told from its lowest event; of several, the first by event numbers from left to right.
///
/// A cycle told from its lowest event s goes on through events above s only. So each s is tried in rising number, and a
/// later one counts only if its cycle is shorter.
pub fn shortest_cycle(graph: &Graph, order: &Relation) -> Option<Vec<usize>> {
    let back: Relation = order.iter().map(|&(a, b)| (b, a)).collect();
    let mut shortest: Option<Vec<usize>> = None;
    for s in 0..graph.events.len() {
        if let Some(cycle) = cycle_from(s, order, &back) {
            if shortest.as_ref().map_or(true, |known| cycle.len() < known.len()) {
                shortest = Some(cycle);
            }
        }
    }
    shortest
}

/// The first of the shortest cycles whose lowest event is s: each step goes to the lowest event that is one step
/// nearer to s.
fn cycle_from(s: usize, order: &Relation, back: &Relation) -> Option<Vec<usize>> {
    let home = steps_home(s, back);
    let length = after(order, s).filter_map(|e| home.get(&e)).min()? + 1;
    let mut cycle = vec![s];
    while cycle.len() < length {
        let left = length - cycle.len();
        let nearer = after(order, cycle[cycle.len() - 1]).find(|e| home.get(e) == Some(&left));
        cycle.push(nearer.expect("an event so many steps from s has a next one"));
    }
    Some(cycle)
}

/// For s and each event above it that leads to s through events above s: the least number of steps.
fn steps_home(s: usize, back: &Relation) -> BTreeMap<usize, usize> {
    let mut home = BTreeMap::from([(s, 0)]);
    let mut ring = vec![s];
    for steps in 1.. {
        let mut next = vec![];
        for &nearer in &ring {
            for e in after(back, nearer) {
                if e > s && !home.contains_key(&e) {
                    home.insert(e, steps);
                    next.push(e);
                }
            }
        }
        if next.is_empty() {
            break;
        }
        ring = next;
    }
    home
}
