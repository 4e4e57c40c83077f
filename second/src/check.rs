//! **Check** "takes the edge table, k and stored tables".

use crate::build::Tables;
use crate::graph::Graph;
use crate::levels::Below;
use crate::outcome::Outcome;
use crate::{lists, refusals};
use std::collections::BTreeMap;

/// Hands the tables back: of them only the working area can have changed.
pub fn check(
    items: u32,
    labels: u32,
    k: u32,
    edges: &[u32],
    mut lent: Tables,
) -> (Outcome, Tables) {
    if let Err(refusal) = refused(items, labels, k, edges, &lent) {
        return (refusal, lent);
    }
    let graph = Graph::new(items as usize, labels as usize, edges);
    let outcome = match judge(&graph, k as usize, &lent) {
        Err(fault) => fault,
        Ok(()) => Outcome::done(0, 0, 0),
    };
    // "0 and 15 to 17: the first 9·V² working bytes are zero"
    lent.area[..refusals::area_needed(items)].fill(0);
    (outcome, lent)
}

/// "Check: 1 2 3 4 5 15 16 17." The first five: "nothing is written".
fn refused(items: u32, labels: u32, k: u32, edges: &[u32], lent: &Tables) -> Result<(), Outcome> {
    refusals::sizes(items, labels)?;
    refusals::depth(k)?;
    refusals::edge_count(edges)?;
    refusals::edge_values(items, labels, edges)?;
    refusals::room(lent.area.len(), refusals::area_needed(items))?;
    let levels_needed = k as usize * refusals::pairs_of(items);
    refusals::room(lent.levels.len(), levels_needed)
}

/// 15, 16, 17. Levels past k·V² numbers are ignored, the lists are compared whole.
fn judge(graph: &Graph, k: usize, stored: &Tables) -> Result<(), Outcome> {
    let pairs = graph.items * graph.items;
    let level = |i: usize| &stored.levels[(i - 1) * pairs..i * pairs];
    for i in 1..=k {
        let below = (i > 1).then(|| Below {
            numbers: level(i - 1),
            connected: graph.connected_within(i - 1),
        });
        if let Some(position) = level_fault(graph, i, below.as_ref(), level(i)) {
            return Err(Outcome::refused_with(15, i as u32, position as u32));
        }
    }
    let (starts, order) = lists::starts_and_order(level(k));
    if let Some(index) = difference(&starts, &stored.starts) {
        return Err(Outcome::refused_with(16, 1, index));
    }
    if let Some(index) = difference(&order, &stored.order) {
        return Err(Outcome::refused_with(16, 2, index));
    }
    // One entry more than the stored list can hold is enough to see any difference.
    let most = stored.entries.len() as u64 / 2 + 1;
    let entries = lists::entries(graph, k, level(k), most);
    match difference(&entries.numbers, &stored.entries) {
        Some(index) => Err(Outcome::refused_at(17, index)),
        None => Ok(()),
    }
}

/// The first faulty position of a level: "an entry is 0 exactly if the pair isn't connected
/// within that level; a non-zero entry is at most one above the largest before it; and each
/// pair with a non-zero entry agrees (A, B, C, over the stored level below) with the first pair
/// of its number".
fn level_fault(graph: &Graph, i: usize, below: Option<&Below>, level: &[u32]) -> Option<usize> {
    let connected = graph.connected_within(i);
    let mut largest_before = 0;
    let mut first_of: BTreeMap<u32, usize> = BTreeMap::new();
    for (position, number) in level.iter().enumerate() {
        if (*number == 0) == connected.has_position(position) {
            return Some(position);
        }
        if *number == 0 {
            continue;
        }
        if *number > largest_before + 1 {
            return Some(position);
        }
        largest_before = largest_before.max(*number);
        let first = *first_of.entry(*number).or_insert(position);
        if !agree(graph, below, position, first) {
            return Some(position);
        }
    }
    None
}

/// "At level i, (v,u) and (x,y) agree if" A, B and C, as the document says it: no sets of
/// classes here, but a search for a twin of each midpoint, both ways round.
pub fn agree(graph: &Graph, below: Option<&Below>, one: usize, other: usize) -> bool {
    let (v, u) = (one / graph.items, one % graph.items);
    let (x, y) = (other / graph.items, other % graph.items);
    let a = (v == u) == (x == y);
    let b = graph.symbols_from_to(v, u) == graph.symbols_from_to(x, y);
    let c = match below {
        None => true,
        Some(below) => {
            all_have_twins(below, (v, u), (x, y)) && all_have_twins(below, (x, y), (v, u))
        }
    };
    a && b && c
}

/// "each m with (v,m) and (m,u) connected within i-1 has a twin m' with (x,m') and (m',y)
/// connected within i-1, (v,m) in the class of (x,m') and (m,u) in the class of (m',y) at level
/// i-1"
fn all_have_twins(below: &Below, (v, u): (usize, usize), (x, y): (usize, usize)) -> bool {
    let items = below.connected.items();
    let class = |from: usize, to: usize| below.numbers[from * items + to];
    let between = |from: usize, m: usize, to: usize| {
        below.connected.has(from, m) && below.connected.has(m, to)
    };
    let has_twin = |m: usize| {
        (0..items).any(|twin| {
            between(x, twin, y) && class(v, m) == class(x, twin) && class(m, u) == class(twin, y)
        })
    };
    (0..items).all(|m| !between(v, m, u) || has_twin(m))
}

/// "the index is the first number that differs, or the shorter length where one list begins the
/// other"
fn difference(needed: &[u32], stored: &[u32]) -> Option<u32> {
    let shorter = needed.len().min(stored.len());
    let differs = (0..shorter).find(|index| needed[*index] != stored[*index]);
    if differs.is_none() && needed.len() == stored.len() {
        return None;
    }
    Some(differs.unwrap_or(shorter) as u32)
}
