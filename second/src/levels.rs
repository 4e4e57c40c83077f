//! The levels that the builder writes.

use crate::graph::Graph;
use crate::relation::Relation;
use std::collections::{BTreeMap, BTreeSet};

/// All that rules A, B and C look at in a pair. Two pairs agree exactly when these are equal:
/// A: whether its items are equal; B: the step symbols that lead along it; C: the set of
/// (class of (v,m), class of (m,u)) over all midpoints m. "Each m has a twin m', and the same
/// the other way round" says that the two sets are equal.
pub type Traits = (bool, Vec<usize>, BTreeSet<(u32, u32)>);

/// The level below: its numbers, and which pairs are connected within it.
pub struct Below<'a> {
    pub numbers: &'a [u32],
    pub connected: Relation,
}

/// The traits of (v,u); at level 1 nothing is below and rule C asks nothing.
pub fn traits(graph: &Graph, below: Option<&Below>, v: usize, u: usize) -> Traits {
    let mut midpoints = BTreeSet::new();
    if let Some(below) = below {
        for m in 0..graph.items {
            if below.connected.has(v, m) && below.connected.has(m, u) {
                let first = below.numbers[v * graph.items + m];
                let second = below.numbers[m * graph.items + u];
                midpoints.insert((first, second));
            }
        }
    }
    (v == u, graph.symbols_from_to(v, u), midpoints)
}

/// "Entry 0: not connected. Else a class number." "Classes are numbered from 1 by their first
/// pair in order of position."
pub fn number_level(graph: &Graph, i: usize, numbers_below: Option<&[u32]>) -> Vec<u32> {
    let connected = graph.connected_within(i);
    let below = numbers_below.map(|numbers| Below {
        numbers,
        connected: graph.connected_within(i - 1),
    });
    let mut classes: BTreeMap<Traits, u32> = BTreeMap::new();
    let mut level = vec![0; graph.items * graph.items];
    for (position, number) in level.iter_mut().enumerate() {
        if connected.has_position(position) {
            let (v, u) = (position / graph.items, position % graph.items);
            let next = classes.len() as u32 + 1;
            *number = *classes
                .entry(traits(graph, below.as_ref(), v, u))
                .or_insert(next);
        }
    }
    level
}

/// Levels 1..k, level 1 first.
pub fn number_levels(graph: &Graph, k: usize) -> Vec<Vec<u32>> {
    let mut levels: Vec<Vec<u32>> = Vec::new();
    for i in 1..=k {
        let below = levels.last().map(|level| level.as_slice());
        let level = number_level(graph, i, below);
        levels.push(level);
    }
    levels
}
