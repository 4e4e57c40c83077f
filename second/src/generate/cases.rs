//! Library cases: the case of a seed and an index.

use super::buffers::{blank, cut, filled, query, with_answer_room};
use super::damage::{damage, damage_list, finer, Stored};
use super::faults;
use super::graphs::{self, Plan};
use super::parts::{lookup_case, pairs_case};
use super::random::Random;
use crate::case::{Case, Kind};
use crate::levels::number_levels;
use crate::lists;

/// Tables of most check and stored cases have no more entries.
const FEW_ENTRIES: usize = 3_000;

pub fn case(seed: u64, index: u64) -> Case {
    let random = &mut Random::new(seed, index);
    match random.below(1600) {
        0..=23 => large(random),
        24..=29 => oversize(random),
        30..=39 => {
            let plan = graphs::many_edges(random);
            let entry = random.pick(&['B', 'D', 'D', 'C']);
            faulty(random, entry, plan)
        }
        _ => {
            let plan = graphs::small(random);
            let entries = ['B', 'B', 'C', 'C', 'C', 'D', 'S', 'S', 'K', 'K', 'P', 'L'];
            let entry = random.pick(&entries);
            faulty(random, entry, plan)
        }
    }
}

/// A case of 127 or 128 items.
fn large(random: &mut Random) -> Case {
    let plan = graphs::large(random);
    let entries = ['B', 'B', 'C', 'C', 'D', 'D', 'S', 'K', 'P', 'L'];
    let entry = random.pick(&entries);
    faulty(random, entry, plan)
}

/// One item too many, and room for it: nothing but V itself is wrong.
fn oversize(random: &mut Random) -> Case {
    let mut plan = graphs::small(random);
    plan.items = 129;
    let entry = random.pick(&['B', 'C', 'D', 'S', 'K']);
    blank(random, entry, &plan)
}

/// A case into which faults may have been put. Checks get them less often: what is damaged in
/// their tables shows only past refusals 1 to 5.
fn faulty(random: &mut Random, entry: char, plan: Plan) -> Case {
    let mut case = good(random, entry, plan);
    let spared = match entry {
        'P' | 'L' => true,
        'C' => !random.once_in(3),
        _ => false,
    };
    if !spared {
        faults::put_faults(random, &mut case);
    }
    case
}

/// A case that is past refusals 1 to 5 and 7 to 12, but for odd queries now and then.
fn good(random: &mut Random, entry: char, plan: Plan) -> Case {
    match entry {
        'B' => build_case(random, &plan),
        'C' => check_case(random, plan),
        'D' => {
            let case = blank(random, entry, &plan);
            with_answer_room(random, case)
        }
        'S' | 'K' => stored_case(random, entry, plan),
        'P' => pairs_case(random, plan),
        _ => lookup_case(random, plan),
    }
}

/// Room for the entries: exact, one number short, odd, longer, or any.
fn build_case(random: &mut Random, plan: &Plan) -> Case {
    let graph = plan.graph();
    let levels = number_levels(&graph, plan.k as usize);
    let last = &levels[plan.k as usize - 1];
    let need = 2 * lists::entries(&graph, plan.k as usize, last, 0).count as usize;
    let room = match random.below(8) {
        0..=2 => need,
        3 => need + random.between(1, 9),
        4 => need.saturating_sub(1),
        5 => need.saturating_sub(2),
        6 => need + 1,
        _ => random.below(need + 1),
    };
    let mut case = blank(random, 'B', plan);
    case.lists[4] = filled(random, room.min(Kind::Entries.most()), false);
    case
}

/// Tables whose entry list is short enough: k is lowered until it is.
pub fn tables(plan: &mut Plan) -> Stored {
    loop {
        let stored = Stored::built(plan);
        if stored.entries.len() <= 2 * FEW_ENTRIES || plan.k == 1 {
            return stored;
        }
        plan.k -= 1;
    }
}

/// Tables as built, finer, or damaged in one place or more.
fn check_case(random: &mut Random, mut plan: Plan) -> Case {
    let mut stored = tables(&mut plan);
    let kind = random.below(12);
    if matches!(kind, 2..=5) {
        finer(random, &plan, &mut stored);
    }
    match kind {
        0..=3 => (),
        4 => damage_list(random, &mut stored),
        5..=9 => damage(random, &plan, &mut stored),
        _ => {
            damage(random, &plan, &mut stored);
            damage(random, &plan, &mut stored);
        }
    }
    let mut case = blank(random, 'C', &plan);
    let stored_levels = stored.levels.concat();
    case.lists[1][..stored_levels.len()].copy_from_slice(&stored_levels);
    case.lists[2] = stored.starts;
    case.lists[3] = stored.order;
    case.lists[4] = stored.entries;
    cut(case)
}

/// Stored and class answers are defined for any tables.
fn stored_case(random: &mut Random, entry: char, mut plan: Plan) -> Case {
    let stored = tables(&mut plan);
    let mut case = blank(random, entry, &plan);
    let mut last = stored.levels[plan.k as usize - 1].clone();
    let mut entries = stored.entries;
    faults::spoil_lists(random, &mut last, &mut entries);
    if random.once_in(6) {
        faults::list_class_0(random, plan.labels, &mut last, &mut entries);
    }
    case.lists[0][..last.len()].copy_from_slice(&last);
    case.lists[1] = entries;
    if entry == 'K' && !random.once_in(3) {
        case.lists[2] = query(random, &plan, plan.k as usize);
    }
    with_answer_room(random, cut(case))
}
