//! What a library case tries: the sizes it names, how long its buffers are and what is wrong with
//! its tables. Seen from the case itself, not from how it was made.

use crate::case::{shape, Case, Kind};
use crate::graph::Graph;
use crate::levels::number_levels;
use crate::query::read_query;
use std::collections::{BTreeMap, BTreeSet};

/// The kinds of a case, each behind the letter of its entry.
pub fn kinds(case: &Case) -> BTreeSet<String> {
    let mut found = sizes(case);
    let (_, lists) = shape(case.entry).expect("a letter of an entry");
    for (kind, list) in lists.iter().zip(&case.lists) {
        found.extend(list_kinds(case, *kind, list));
    }
    if case.entry == 'C' {
        found.extend(levels_kinds(case));
    }
    let named = found.iter().map(|kind| format!("{} {kind}", case.entry));
    named.collect()
}

/// The sizes at the limits. The numbers of P are no sizes.
fn sizes(case: &Case) -> Vec<String> {
    if case.entry == 'P' {
        return Vec::new();
    }
    let limits: [(&str, &[u32]); 3] = [
        ("items", &[0, 1, 127, 128, 129]),
        ("labels", &[0, 1, 8, 9]),
        ("k", &[0, 1, 4, 5]),
    ];
    let mut found = Vec::new();
    for ((name, limits), number) in limits.iter().zip(&case.numbers) {
        if limits.contains(number) {
            found.push(format!("{name} {number}"));
        }
    }
    found
}

fn list_kinds(case: &Case, kind: Kind, list: &[u32]) -> Vec<String> {
    match kind {
        Kind::Edges => edges_kinds(list),
        Kind::Tokens => tokens_kinds(case, list),
        Kind::Symbols => Vec::new(),
        Kind::Entries if case.entry == 'B' => room_kinds(case, kind, list),
        Kind::Entries => entries_kinds(list),
        Kind::Table => [room_kinds(case, kind, list), numbers_kinds(case, list)].concat(),
        // check takes starts and order as they are, and so do the pairs of a class
        Kind::Starts | Kind::Order if case.entry != 'B' => Vec::new(),
        Kind::Levels if case.entry == 'C' => {
            [room_kinds(case, kind, list), numbers_kinds(case, list)].concat()
        }
        _ => room_kinds(case, kind, list),
    }
}

fn edges_kinds(edges: &[u32]) -> Vec<String> {
    let count = edges.len() / 3;
    let whole = edges.len() % 3 == 0;
    let named = [4096, 4097].contains(&count) && whole;
    named
        .then(|| format!("edges {count}"))
        .into_iter()
        .collect()
}

/// 64 or 65 tokens; at most eight operands that wait in a query that can be read, or a ninth.
fn tokens_kinds(case: &Case, tokens: &[u32]) -> Vec<String> {
    let mut found = Vec::new();
    if [64, 65].contains(&tokens.len()) {
        found.push(format!("tokens {}", tokens.len()));
    }
    let bytes: Vec<u8> = tokens.iter().map(|token| *token as u8).collect();
    let (mut waiting, mut most) = (0_usize, 0);
    for token in &bytes {
        let combines = matches!(token, 32 | 33);
        waiting = if combines {
            waiting.saturating_sub(1)
        } else {
            waiting + 1
        };
        most = most.max(waiting);
    }
    match read_query(&bytes, case.numbers[1].min(8)) {
        Ok(_) if most == 8 => found.push("operands 8".to_string()),
        Err(fault) if fault.number == 10 => found.push("operands 9".to_string()),
        _ => (),
    }
    found
}

/// Entries out of order, or a last number that has no partner.
fn entries_kinds(entries: &[u32]) -> Vec<String> {
    let mut found = Vec::new();
    if entries.len() % 2 == 1 {
        found.push("entries odd".to_string());
    }
    let pairs: Vec<&[u32]> = entries.chunks_exact(2).collect();
    if pairs.windows(2).any(|two| two[0] >= two[1]) {
        found.push("entries unsorted".to_string());
    }
    found
}

/// Numbers of classes that cannot be.
fn numbers_kinds(case: &Case, list: &[u32]) -> Vec<String> {
    let items = u64::from(case.numbers[0]);
    let used = list.iter().take(needed(case, Kind::Table, list));
    let above = used
        .into_iter()
        .any(|number| u64::from(*number) > items * items);
    above
        .then(|| "class above V²".to_string())
        .into_iter()
        .collect()
}

/// Too short, exact or longer than needed, and filled with other numbers than 0. A list of none
/// where none is needed says nothing.
fn room_kinds(case: &Case, kind: Kind, list: &[u32]) -> Vec<String> {
    let name = format!("{kind:?}").to_lowercase();
    let needed = needed(case, kind, list);
    let mut found = Vec::new();
    if needed > 0 {
        let room = match list.len() {
            length if length < needed => "short",
            length if length == needed => "exact",
            _ => "longer",
        };
        found.push(format!("{name} {room}"));
    }
    if list.iter().any(|number| *number != 0) {
        found.push(format!("{name} filled"));
    }
    found
}

/// What the entry needs of a list, where its sizes can be.
fn needed(case: &Case, kind: Kind, list: &[u32]) -> usize {
    let size = |place: usize| case.numbers.get(place).map_or(0, |size| (*size).min(129)) as usize;
    let pairs = size(0) * size(0);
    match kind {
        Kind::Area => 9 * pairs,
        Kind::Levels => size(2).min(4) * pairs,
        Kind::Starts => pairs + 1,
        Kind::Table if case.entry == 'C' => list.len().min(size(2).min(4) * pairs),
        Kind::Answers | Kind::Entries => told_need(case, kind),
        _ => pairs,
    }
}

/// As many answers or entries as the entry says that it writes or needs; 0 where it refuses.
fn told_need(case: &Case, kind: Kind) -> usize {
    let (outcome, _) = case.run();
    match (kind, outcome.number) {
        (Kind::Answers, 0 | 13) => outcome.a as usize,
        (Kind::Entries, 0) => 2 * outcome.c as usize,
        (Kind::Entries, 6) => 2 * outcome.a as usize,
        _ => 0,
    }
}

/// How the levels of a check differ from those that build would write.
fn levels_kinds(case: &Case) -> Vec<String> {
    let (outcome, _) = case.run();
    if (1..=5).contains(&outcome.number) {
        return Vec::new();
    }
    let (items, k) = (case.numbers[0] as usize, case.numbers[2] as usize);
    let graph = Graph::new(items, case.numbers[1] as usize, &case.lists[0]);
    let mut found = Vec::new();
    for (i, built) in number_levels(&graph, k).iter().enumerate() {
        let stored = &case.lists[1][i * items * items..(i + 1) * items * items];
        let difference = match (settles(stored, built), settles(built, stored)) {
            _ if stored == built => continue,
            (true, true) => "levels renumbered",
            (true, false) => "levels split",
            (false, true) => "levels merged",
            (false, false) => "levels changed",
        };
        found.push(difference.to_string());
    }
    let built = found.is_empty();
    match outcome.number {
        0 if built => found.push("as built".to_string()),
        0 => found.push("finer and accepted".to_string()),
        _ => (),
    }
    found
}

/// Whether the number in the one level settles that in the other.
fn settles(one: &[u32], other: &[u32]) -> bool {
    let mut settled = BTreeMap::new();
    let mut both = one.iter().zip(other);
    both.all(|(number, meant)| settled.entry(number).or_insert(meant) == &meant)
}
