//! Cases of the two entries that hand back a part of a list.

use super::buffers::cut;
use super::cases::tables;
use super::damage::Stored;
use super::faults;
use super::graphs::Plan;
use super::random::Random;
use crate::case::Case;

pub fn pairs_case(random: &mut Random, mut plan: Plan) -> Case {
    let Stored {
        mut starts,
        mut order,
        ..
    } = tables(&mut plan);
    let last = starts.len() as u32 - 1;
    let inside = random.between(0, last as usize) as u32;
    let c = random.pick(&[0, 1, inside, inside, inside, last, last + 1, u32::MAX]);
    if random.once_in(2) {
        let place = random.below(starts.len());
        let whole = order.len() as u32;
        let choices = [0, inside, whole, whole + 1, u32::MAX, random.number()];
        starts[place] = random.pick(&choices);
    }
    match random.below(10) {
        0 => order.truncate(random.below(order.len() + 1)),
        1 => starts.truncate(random.below(starts.len() + 1)),
        2 => order.push(0),
        _ => (),
    }
    Case {
        entry: 'P',
        numbers: vec![c],
        lists: vec![starts, order],
    }
}

pub fn lookup_case(random: &mut Random, mut plan: Plan) -> Case {
    let mut entries = tables(&mut plan).entries;
    let mut symbols = listed_symbols(random, &entries);
    faults::spoil_lists(random, &mut [], &mut entries);
    if random.once_in(3) {
        let length = random.between(0, 6);
        symbols = (0..length).map(|_| random.between(1, 16) as u32).collect();
    }
    if random.once_in(4) && !symbols.is_empty() {
        let place = random.below(symbols.len());
        symbols[place] = random.pick(&[0, 16, 17, 18, 255, 2 * plan.labels + 1]);
    }
    if random.once_in(30) {
        symbols.resize(random.between(4, 80), 1);
    }
    cut(Case {
        entry: 'L',
        numbers: vec![],
        lists: vec![symbols, entries],
    })
}

/// The symbols of some sequence of the entry list.
fn listed_symbols(random: &mut Random, entries: &[u32]) -> Vec<u32> {
    if entries.is_empty() {
        return Vec::new();
    }
    let mut code = entries[2 * random.below(entries.len() / 2)];
    let mut symbols = Vec::new();
    while code > 0 {
        symbols.insert(0, code % 17);
        code /= 17;
    }
    symbols
}
