//! Refusals 1 to 5, each in a function of its own; an entry calls them in its order.

use crate::outcome::Outcome;

/// 1: "V above 128, L not 1..8"
pub fn sizes(items: u32, labels: u32) -> Result<(), Outcome> {
    refuse_if(items > 128 || !(1..=8).contains(&labels), 1)
}

/// 2: "k not 1..4"
pub fn depth(k: u32) -> Result<(), Outcome> {
    refuse_if(!(1..=4).contains(&k), 2)
}

/// 3: "edge numbers not a multiple of 3, or over 4,096 edges"
pub fn edge_count(edges: &[u32]) -> Result<(), Outcome> {
    refuse_if(!edges.len().is_multiple_of(3) || edges.len() / 3 > 4096, 3)
}

/// 4: "an edge's item or label too large"; returns the "first such edge, from 0"
pub fn edge_values(items: u32, labels: u32, edges: &[u32]) -> Result<(), Outcome> {
    for (place, edge) in edges.chunks(3).enumerate() {
        if edge[0] >= items || edge[1] >= items || edge[2] >= labels {
            return Err(Outcome::refused_at(4, place as u32));
        }
    }
    Ok(())
}

/// 5: a buffer shorter than what is needed
pub fn room(length: usize, needed: usize) -> Result<(), Outcome> {
    refuse_if(length < needed, 5)
}

/// "Working area: 9·V² bytes."
pub fn area_needed(items: u32) -> usize {
    9 * pairs_of(items)
}

/// V²: the number of pairs of items.
pub fn pairs_of(items: u32) -> usize {
    items as usize * items as usize
}

fn refuse_if(fault: bool, number: u32) -> Result<(), Outcome> {
    if fault {
        return Err(Outcome::refused(number));
    }
    Ok(())
}
