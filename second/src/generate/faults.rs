//! Faults that an entry refuses, put into a good case; and spoilt lists that stored answers and
//! lookups must stand.

use super::queries;
use super::random::Random;
use crate::case::{Case, Kind};

#[derive(Clone, Copy)]
enum Fault {
    Items,
    Labels,
    Depth,
    EdgeLength,
    EdgeValue,
    Tokens,
    Short(Kind),
}

/// The faults that an entry can have; what it meets more often stands there more often.
fn faults_of(entry: char) -> &'static [Fault] {
    use Fault::*;
    const AREA: Fault = Short(Kind::Area);
    const LEVELS: Fault = Short(Kind::Levels);
    const STARTS: Fault = Short(Kind::Starts);
    const ORDER: Fault = Short(Kind::Order);
    const TABLE: Fault = Short(Kind::Table);
    match entry {
        'B' => &[
            Items, Labels, Depth, EdgeLength, EdgeValue, EdgeValue, AREA, LEVELS, STARTS, ORDER,
        ],
        'C' => &[
            Items, Labels, Depth, EdgeLength, EdgeValue, EdgeValue, AREA, LEVELS,
        ],
        'D' => &[
            Items, Labels, EdgeLength, EdgeValue, EdgeValue, Tokens, Tokens, Tokens, Tokens, AREA,
        ],
        'S' => &[
            Items, Labels, Tokens, Tokens, Tokens, Tokens, Tokens, AREA, TABLE,
        ],
        _ => &[
            Items, Labels, Depth, Tokens, Tokens, Tokens, Tokens, Tokens, AREA, TABLE,
        ],
    }
}

/// None, one, or several at once: that tests the order of refusals.
pub fn put_faults(random: &mut Random, case: &mut Case) {
    let count = random.pick(&[0, 0, 0, 0, 0, 0, 0, 0, 0, 0, 1, 1, 1, 1, 1, 2, 2, 2, 3, 3]);
    for _ in 0..count {
        let fault = random.pick(faults_of(case.entry));
        put_fault(random, case, fault);
    }
}

fn put_fault(random: &mut Random, case: &mut Case, fault: Fault) {
    match fault {
        Fault::Items => put_number(random, case, 0, &[129, 130, 255, 256, 65_536, u32::MAX]),
        Fault::Labels => put_number(random, case, 1, &[0, 9, 10, 16, 128, u32::MAX]),
        Fault::Depth => put_number(random, case, 2, &[0, 5, 6, u32::MAX]),
        Fault::EdgeLength => with_list(case, Kind::Edges, |edges| spoil_length(random, edges)),
        Fault::EdgeValue => spoil_edge(random, case),
        Fault::Tokens => spoil_tokens(random, case),
        Fault::Short(kind) => shorten(random, case, kind),
    }
}

/// Items, labels or k outside their bounds, or one off: then the rest no longer fits.
fn put_number(random: &mut Random, case: &mut Case, place: usize, choices: &[u32]) {
    let number = &mut case.numbers[place];
    *number = match random.below(6) {
        0 => number.wrapping_add(1),
        1 => number.wrapping_sub(1),
        _ => random.pick(choices),
    };
}

fn spoil_tokens(random: &mut Random, case: &mut Case) {
    let labels = case.numbers[1];
    with_list(case, Kind::Tokens, |list| {
        let mut tokens: Vec<u8> = list.iter().map(|token| *token as u8).collect();
        queries::spoil(random, labels, &mut tokens);
        *list = tokens.iter().map(|token| u32::from(*token)).collect();
    });
}

fn with_list(case: &mut Case, kind: Kind, change: impl FnOnce(&mut Vec<u32>)) {
    if let Some(place) = case.place(kind) {
        change(&mut case.lists[place]);
    }
}

/// Numbers that make no whole edge, or once in a while an edge too many.
fn spoil_length(random: &mut Random, edges: &mut Vec<u32>) {
    if random.once_in(30) {
        edges.resize(3 * 4097, 0);
        return;
    }
    let extra = random.between(1, 2);
    let length = edges.len() + extra;
    edges.resize(length.min(Kind::Edges.most()), 0);
}

/// An edge with an item or a label that is too large.
fn spoil_edge(random: &mut Random, case: &mut Case) {
    let bounds = [case.numbers[0], case.numbers[0], case.numbers[1]];
    with_list(case, Kind::Edges, |edges| {
        if edges.is_empty() {
            edges.extend([0, 0, 0]);
        }
        let place = random.below(edges.len());
        let bound = bounds[place % 3];
        edges[place] = random.pick(&[bound, bound.saturating_add(1), u32::MAX]);
    });
}

/// A lent buffer loses the last number that is needed, or more.
fn shorten(random: &mut Random, case: &mut Case, kind: Kind) {
    let needed = needed(case, kind);
    with_list(case, kind, |list| {
        let shorter = match random.below(4) {
            0 => 0,
            1 => random.below(needed + 1),
            _ => needed.saturating_sub(1),
        };
        list.truncate(shorter);
    });
}

/// What refusal 5 asks of a list.
fn needed(case: &Case, kind: Kind) -> usize {
    let number = |place: usize| case.numbers[place].min(129) as usize;
    let pairs = number(0) * number(0);
    match kind {
        Kind::Area => 9 * pairs,
        Kind::Levels => number(2) * pairs,
        Kind::Starts => pairs + 1,
        _ => pairs,
    }
}

/// A level-k table and an entry list that may no longer be as a builder writes them.
pub fn spoil_lists(random: &mut Random, table: &mut [u32], entries: &mut Vec<u32>) {
    if random.once_in(3) {
        spoil_table(random, table);
    }
    for _ in 0..random.pick(&[0, 0, 0, 1, 2, 5]) {
        spoil_entries(random, entries);
    }
}

/// A step lists class 0, and pairs have the number 0: they are no pairs of a class for that.
pub fn list_class_0(random: &mut Random, labels: u32, table: &mut [u32], entries: &mut Vec<u32>) {
    let symbol = random.between(1, 2 * labels as usize) as u32;
    let run = entries.chunks(2).position(|entry| entry[0] == symbol);
    let place = 2 * run.unwrap_or(entries.len() / 2);
    entries.splice(place..place, [symbol, 0]);
    for _ in 0..random.between(1, 4) {
        if !table.is_empty() {
            let place = random.below(table.len());
            table[random.pick(&[0, place])] = 0;
        }
    }
}

/// A lone last number, an entry of class 0 or of a class that is not there, a second run of a
/// code, entries out of order.
fn spoil_entries(random: &mut Random, entries: &mut Vec<u32>) {
    let count = entries.len() / 2;
    let mut place = 2 * random.below(count + 1);
    let mut code = random.pick(&[0, 1, 2, 3, 4, 16, 17, 18, 19, 83_520, u32::MAX]);
    if count > 0 && random.once_in(2) {
        // a code that is listed, mostly in its own run and mostly of one step
        let among = random.pick(&[8, 20, count]).min(count);
        let listed = 2 * random.below(among);
        code = entries[listed];
        place = if random.once_in(4) { place } else { listed };
    }
    let class = random.pick(&[0, 1, 2, 3, 200, u32::MAX, u32::MAX - 1]);
    let after = code.wrapping_add(1);
    let added: &[u32] = match random.below(10) {
        0 | 1 => &[code, 0],
        2 => &[code, class],
        3 | 4 => &[code, class, after, class, code, 1],
        5 => return entries.push(code),
        6 => return entries.truncate(place + 1),
        7 if place < entries.len() => {
            entries[place] = code;
            return;
        }
        _ => return swap_entries(random, entries),
    };
    entries.splice(place..place, added.iter().copied());
}

/// Entries change places: the list is no longer sorted.
fn swap_entries(random: &mut Random, entries: &mut [u32]) {
    let count = entries.len() / 2;
    if count < 2 {
        return;
    }
    for _ in 0..random.between(1, count) {
        let (one, other) = (random.below(count), random.below(count));
        entries.swap(2 * one, 2 * other);
        entries.swap(2 * one + 1, 2 * other + 1);
    }
}

/// Level-k numbers as a stored answer may meet them: any at all.
fn spoil_table(random: &mut Random, table: &mut [u32]) {
    if table.is_empty() {
        return;
    }
    for _ in 0..random.between(1, table.len()) {
        let other = table[random.below(table.len())];
        let above = table.len() as u32 + 1;
        let small = random.below(4) as u32;
        let place = random.below(table.len());
        let choices = [0, 0, small, above, u32::MAX, u32::MAX - 1, other, other];
        table[place] = random.pick(&choices);
    }
}
