//! **Build** "writes the four tables, returns C, the number of connected pairs and the number
//! of entries".

use crate::graph::Graph;
use crate::outcome::Outcome;
use crate::{levels, lists, refusals};

/// The tables and the working area, lent to build (to write) and to check (to read).
#[derive(Clone, Debug, PartialEq, Eq)]
pub struct Tables {
    pub levels: Vec<u32>,
    pub starts: Vec<u32>,
    pub order: Vec<u32>,
    pub entries: Vec<u32>,
    pub area: Vec<u8>,
}

/// Hands the tables back as they stand afterwards.
pub fn build(
    items: u32,
    labels: u32,
    k: u32,
    edges: &[u32],
    mut lent: Tables,
) -> (Outcome, Tables) {
    let outcome = match refused(items, labels, k, edges, &lent) {
        Err(refusal) => refusal,
        Ok(()) => write_tables(items, labels, k, edges, &mut lent),
    };
    (outcome, lent)
}

/// "Build: 1 2 3 4 5 6." The first five: "nothing is written".
fn refused(items: u32, labels: u32, k: u32, edges: &[u32], lent: &Tables) -> Result<(), Outcome> {
    refusals::sizes(items, labels)?;
    refusals::depth(k)?;
    refusals::edge_count(edges)?;
    refusals::edge_values(items, labels, edges)?;
    let pairs = refusals::pairs_of(items);
    refusals::room(lent.area.len(), refusals::area_needed(items))?;
    refusals::room(lent.levels.len(), k as usize * pairs)?;
    refusals::room(lent.order.len(), pairs)?;
    refusals::room(lent.starts.len(), pairs + 1)
}

/// 0 or 6: "levels, order and starts as for 0, entries unchanged, working area zero".
fn write_tables(items: u32, labels: u32, k: u32, edges: &[u32], lent: &mut Tables) -> Outcome {
    let graph = Graph::new(items as usize, labels as usize, edges);
    let numbered = levels::number_levels(&graph, k as usize);
    let last = &numbered[k as usize - 1];
    let (starts, order) = lists::starts_and_order(last);
    write(&mut lent.levels, &numbered.concat());
    write(&mut lent.starts, &starts);
    write(&mut lent.order, &order);
    lent.area[..refusals::area_needed(items)].fill(0);

    // "more entries than room (two numbers each, an odd one unused)"
    let room = lent.entries.len() as u64 / 2;
    let entries = lists::entries(&graph, k as usize, last, room);
    if entries.count > room {
        return Outcome::refused_at(6, entries.count as u32);
    }
    write(&mut lent.entries, &entries.numbers);
    let classes = lists::class_count(last);
    Outcome::done(classes, order.len() as u32, entries.count as u32)
}

/// "Numbers past those a table or answer needs never change."
fn write(lent: &mut [u32], numbers: &[u32]) {
    lent[..numbers.len()].copy_from_slice(numbers);
}
