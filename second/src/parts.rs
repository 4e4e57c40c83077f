//! The two entries that hand back a part of a list: pairs of a class, sequence lookup.

use crate::outcome::Outcome;
use std::collections::BTreeSet;

/// **Pairs of a class**: "the part of the caller's order list", as its bounds in b and c.
/// 14: "c is 0, starts has no place c, or its two bounds are out of order or pass the order
/// list".
pub fn pairs_of_class(c: u32, starts: &[u32], order: &[u32]) -> Outcome {
    let place = c as usize;
    if c == 0 || place >= starts.len() {
        return Outcome::refused(14);
    }
    let (from, to) = (starts[place - 1], starts[place]);
    if from > to || to as usize > order.len() {
        return Outcome::refused(14);
    }
    Outcome::done(0, from, to)
}

/// **Sequence lookup**: "0..4 symbols; the part of the entry list from the first entry with
/// that code as far as the run of that code goes; empty if there is none, or on a refusal". The
/// bounds stand in b and c and count numbers, two an entry.
pub fn sequence_lookup(symbols: &[u8], entries: &[u32]) -> Outcome {
    if symbols.len() > 4 {
        return Outcome::refused(12);
    }
    let wrong = |symbol: &u8| !(1..=16).contains(symbol);
    if let Some(place) = symbols.iter().position(wrong) {
        return Outcome::refused_at(8, place as u32);
    }
    let code = code_of(symbols);
    // "neither here nor in lookup is a lone last number of the entry list read"
    let codes: Vec<u32> = entries.chunks_exact(2).map(|entry| entry[0]).collect();
    let Some(first) = codes.iter().position(|found| *found == code) else {
        return Outcome::done(0, 0, 0);
    };
    let run = codes[first..].iter().take_while(|found| **found == code);
    let after = first + run.count();
    Outcome::done(0, 2 * first as u32, 2 * after as u32)
}

/// "A sequence of 0..k symbols has the code got by starting at 0 and, for each symbol,
/// multiplying by 17 and adding it."
fn code_of(symbols: &[u8]) -> u32 {
    let mut code = 0;
    for symbol in symbols {
        code = code * 17 + u32::from(*symbol);
    }
    code
}

/// The classes in the part that sequence lookup gives for a step symbol alone: the second
/// number of each of its entries.
pub fn classes_of_step(symbol: u8, entries: &[u32]) -> BTreeSet<u32> {
    let found = sequence_lookup(&[symbol], entries);
    let part = &entries[found.b as usize..found.c as usize];
    part.chunks_exact(2).map(|entry| entry[1]).collect()
}
