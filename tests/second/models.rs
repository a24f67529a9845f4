//! The five models and the two layers (sections 8 and 9 of docs/RULES.md).

use crate::graph::{Graph, Placements};
use crate::relations::{at_one_location, mo, plus, po, rb, rf, sw, union, Relation};
use std::collections::BTreeSet;

#[derive(Clone, Copy, Debug, PartialEq, Eq)]
pub enum Model {
    Coh,
    C11,
    Ra,
    Tso,
    Sc,
}

impl Model {
    pub fn of_number(number: u64) -> Option<Model> {
        match number {
            0 => Some(Model::Coh),
            1 => Some(Model::C11),
            2 => Some(Model::Ra),
            3 => Some(Model::Tso),
            4 => Some(Model::Sc),
            _ => None,
        }
    }
}

/// A model with the layers over it.
#[derive(Clone)]
pub struct Pile {
    pub model: Model,
    pub barrier: bool,
    /// The threads of the strong layer; no thread, no layer.
    pub strong: BTreeSet<usize>,
}

/// A pile asked about one graph.
///
/// Every order of every model ends in "mo, rb". What stands before that, and what the layers add, does not look at the
/// placements, so it is worked out once, here; `order` adds mo and rb for the placements asked about.
pub struct Orders {
    steady: Vec<Relation>,
    rf: Relation,
}

impl Orders {
    pub fn of(graph: &Graph, pile: &Pile) -> Orders {
        let mut steady = model_pairs(graph, pile.model);
        let added = layer_pairs(graph, pile);
        for order in &mut steady {
            order.extend(&added);
        }
        Orders { steady, rf: rf(graph) }
    }

    /// The number of orders.
    pub fn count(&self) -> usize {
        self.steady.len()
    }

    /// Order k with the given placements.
    pub fn order(&self, k: usize, placements: &Placements) -> Relation {
        let mo = mo(placements);
        let mut order = self.steady[k].clone();
        order.extend(rb(&self.rf, &mo));
        order.extend(mo);
        order
    }
}

/// What stands before "mo, rb" in each order of a model.
fn model_pairs(graph: &Graph, model: Model) -> Vec<Relation> {
    let po = po(graph);
    let rf = rf(graph);
    match model {
        Model::Coh => vec![union(&at_one_location(graph, &po), &rf)],
        Model::C11 => {
            let hb = plus(&union(&po, &sw(graph)));
            vec![union(&at_one_location(graph, &hb), &rf)]
        }
        Model::Ra => vec![at_one_location(graph, &plus(&union(&po, &rf)))],
        Model::Tso => {
            let coherence = union(&at_one_location(graph, &po), &rf);
            let kept = po.into_iter().filter(|&(a, b)| !from_write_to_read(graph, a, b)).collect();
            let between = rf.into_iter().filter(|&(w, r)| graph.events[w].thread != graph.events[r].thread).collect();
            vec![coherence, union(&kept, &between)]
        }
        Model::Sc => vec![union(&po, &rf)],
    }
}

/// The pairs that a store buffer lets pass each other.
fn from_write_to_read(graph: &Graph, a: usize, b: usize) -> bool {
    graph.events[a].is_plain_write() && graph.events[b].is_plain_read()
}

/// What the layers add to every order.
fn layer_pairs(graph: &Graph, pile: &Pile) -> Relation {
    let barrier = |a: usize, b: usize| pile.barrier && (graph.events[a].is_sc_fence() || graph.events[b].is_sc_fence());
    let strong = |a: usize, b: usize| {
        let thread = graph.events[a].thread;
        thread == graph.events[b].thread && pile.strong.contains(&thread)
    };
    po(graph).into_iter().filter(|&(a, b)| barrier(a, b) || strong(a, b)).collect()
}
