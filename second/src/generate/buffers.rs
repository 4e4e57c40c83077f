//! Lent buffers: how long they are and what stands in them beforehand.

use super::graphs::Plan;
use super::queries;
use super::random::Random;
use crate::case::{shape, Case, Kind};

/// A case with room in every buffer, each filled so that a stray write shows.
pub fn blank(random: &mut Random, entry: char, plan: &Plan) -> Case {
    let (count, kinds) = shape(entry).expect("a letter of an entry");
    let numbers = [plan.items, plan.labels, plan.k][..count].to_vec();
    let lists = kinds.iter().map(|kind| blank_list(random, *kind, plan));
    Case {
        entry,
        numbers,
        lists: lists.collect(),
    }
}

fn blank_list(random: &mut Random, kind: Kind, plan: &Plan) -> Vec<u32> {
    let pairs = plan.pairs();
    let extra = random.pick(&[0, 0, 0, 1, 2, 5, 8]);
    let length = match kind {
        Kind::Edges => return plan.edges.clone(),
        Kind::Tokens => return query(random, plan, plan.k as usize),
        Kind::Symbols => return Vec::new(),
        Kind::Area => 9 * pairs,
        Kind::Levels => plan.k as usize * pairs,
        Kind::Starts => pairs + 1,
        Kind::Entries => random.below(20),
        Kind::Table | Kind::Order | Kind::Answers => pairs,
    };
    filled(random, length + extra, kind.holds_bytes())
}

/// One number all over, with some others in between.
pub fn filled(random: &mut Random, length: usize, bytes: bool) -> Vec<u32> {
    let least = if bytes { 0 } else { 1000 };
    let most = if bytes { 255 } else { u32::MAX };
    let mut list = vec![random.pick(&[0, 1, least + 85, least + 170, most]); length];
    if length > 0 {
        for _ in 0..random.pick(&[0, 0, 1, 4]) {
            let place = random.below(length);
            list[place] = random.number() & most;
        }
    }
    list
}

/// A query, often one that joins at most k steps.
pub fn query(random: &mut Random, plan: &Plan, k: usize) -> Vec<u32> {
    let tokens = match random.below(3) {
        0 => queries::within_diameter(random, plan.labels, k as u32),
        _ => queries::good(random, plan.labels),
    };
    tokens.iter().map(|token| u32::from(*token)).collect()
}

/// Room for the answers: exact, too short, or longer. Without any room the entry itself says
/// what it needs.
pub fn with_answer_room(random: &mut Random, mut case: Case) -> Case {
    let place = case.place(Kind::Answers).expect("an entry that answers");
    case.lists[place] = Vec::new();
    let (outcome, _) = case.run();
    let need = if outcome.number == 13 {
        outcome.a as usize
    } else {
        0
    };
    let room = match random.below(8) {
        0..=2 => need,
        3 => need.saturating_sub(1),
        4 => random.below(need + 1),
        _ => need + random.between(1, 9),
    };
    case.lists[place] = filled(random, room, false);
    case
}

/// No list passes the length that docs/TRIAL.md names.
pub fn cut(mut case: Case) -> Case {
    let (_, kinds) = shape(case.entry).expect("a letter of an entry");
    for (kind, list) in kinds.iter().zip(&mut case.lists) {
        list.truncate(kind.most());
    }
    case
}
