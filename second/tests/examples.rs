//! P1 to P12 of document 01, on its table.

use second::answers::Sizes;
use second::*;

pub const EDGES: [u32; 9] = [0, 2, 0, 1, 2, 0, 3, 2, 1];

const LEVEL_1: [u32; 16] = [1, 0, 2, 0, 0, 1, 2, 0, 3, 3, 1, 4, 0, 0, 5, 1];
const LEVEL_2: [u32; 16] = [1, 2, 3, 4, 2, 1, 3, 4, 5, 5, 6, 7, 8, 8, 9, 10];
const ENTRIES: [u32; 28] = [
    0, 1, 0, 6, 0, 10, 1, 3, 2, 5, 3, 9, 4, 7, 19, 1, 19, 2, 21, 4, 35, 6, 53, 8, 55, 10, 71, 6,
];

fn lent(entry_room: usize) -> Tables {
    Tables {
        levels: vec![900; 34],
        starts: vec![901; 19],
        order: vec![902; 18],
        entries: vec![903; 2 * entry_room],
        area: vec![7; 150],
    }
}

fn direct(tokens: &[u8]) -> Answered {
    direct_answer(4, 2, &EDGES, tokens, vec![904; 8], vec![7; 144])
}

fn stored(tokens: &[u8]) -> Answered {
    stored_answer(4, 2, &LEVEL_2, &ENTRIES, tokens, vec![904; 8], vec![7; 144])
}

fn class(k: u32, tokens: &[u8]) -> Answered {
    let sizes = Sizes {
        items: 4,
        labels: 2,
        k,
    };
    class_answer(
        sizes,
        &LEVEL_2,
        &ENTRIES,
        tokens,
        vec![904; 8],
        vec![7; 144],
    )
}

fn answers(answered: Answered) -> Vec<u32> {
    assert_eq!(answered.outcome.number, 0);
    assert_eq!(answered.area, [0; 144]);
    let (given, rest) = answered.answers.split_at(answered.outcome.a as usize);
    assert!(rest.iter().all(|number| *number == 904));
    given.to_vec()
}

#[test]
fn p1_to_p5_tables() {
    let (outcome, after) = build(4, 2, 2, &EDGES, lent(15));
    assert_eq!(outcome, Outcome::done(10, 16, 14));
    assert_eq!(after.levels[..16], LEVEL_1);
    assert_eq!(after.levels[16..32], LEVEL_2);
    assert_eq!(after.levels[32..], [900; 2]);
    assert_eq!(after.starts[..11], [0, 2, 4, 6, 8, 10, 11, 12, 14, 15, 16]);
    assert_eq!(after.starts[11..], [901; 8]);
    let order = [0, 5, 1, 4, 2, 6, 3, 7, 8, 9, 10, 11, 12, 13, 14, 15];
    assert_eq!(after.order[..16], order);
    assert_eq!(after.order[16..], [902; 2]);
    assert_eq!(after.entries[..28], ENTRIES);
    assert_eq!(after.entries[28..], [903; 2]);
    assert_eq!(after.area[..144], [0; 144]);
    assert_eq!(after.area[144..], [7; 6]);
}

#[test]
fn p6_along_and_back() {
    assert_eq!(answers(direct(&[1, 2, 32])), [0, 1, 4, 5]);
    assert_eq!(answers(stored(&[1, 2, 32])), [0, 1, 4, 5]);
}

#[test]
fn p7_diameter_3() {
    assert_eq!(answers(direct(&[1, 2, 32, 1, 32])), [2, 6]);
    assert_eq!(answers(stored(&[1, 2, 32, 1, 32])), [2, 6]);
    let refused = class(2, &[1, 2, 32, 1, 32]);
    assert_eq!(refused.outcome, Outcome::refused(12));
    assert_eq!(refused.area, [7; 144]);
}

#[test]
fn p8_p9_p10_refused_queries() {
    assert_eq!(direct(&[5]).outcome, Outcome::refused_at(8, 0));
    assert_eq!(stored(&[1, 32]).outcome, Outcome::refused_at(9, 1));
    assert_eq!(class(2, &[1, 2]).outcome, Outcome::refused(11));
}

#[test]
fn p11_entry_room() {
    let (outcome, after) = build(4, 2, 2, &EDGES, lent(13));
    assert_eq!(outcome, Outcome::refused_at(6, 14));
    assert_eq!(after.entries, [903; 26]);
    let (_, roomy) = build(4, 2, 2, &EDGES, lent(14));
    assert_eq!(after.levels, roomy.levels);
    assert_eq!(after.starts, roomy.starts);
    assert_eq!(after.order, roomy.order);
    assert_eq!(after.area, roomy.area);
}

#[test]
fn p12_no_items() {
    let (outcome, after) = build(0, 1, 1, &[], lent(1));
    assert_eq!(outcome, Outcome::done(0, 0, 0));
    assert_eq!(after.starts[..2], [0, 901]);
    assert_eq!(after.order, [902; 18]);
    assert_eq!(after.area, [7; 150]);
    let answered = direct_answer(0, 1, &[], &[0], vec![904; 2], vec![]);
    assert_eq!(answered.outcome, Outcome::done(0, 0, 0));
    assert_eq!(answered.answers, [904; 2]);
}

#[test]
fn class_answers() {
    assert_eq!(answers(class(2, &[1, 2, 32])), [1, 2]);
    assert_eq!(answers(class(2, &[0])), [1, 6, 10]);
}

#[test]
fn joins_go_left_to_right() {
    assert_eq!(answers(direct(&[2, 1, 32])), [10]);
}

#[test]
fn class_0_matches_nothing() {
    let table = [0, 3, 0, 0];
    let entries = [1, 0, 1, 3];
    let answered = stored_answer(2, 1, &table, &entries, &[1], vec![904; 4], vec![7; 36]);
    assert_eq!(answered.outcome, Outcome::done(1, 0, 0));
    assert_eq!(answered.answers, [1, 904, 904, 904]);
}

#[test]
fn parts_of_lists() {
    let starts = [0, 2, 4, 6, 8, 10, 11, 12, 14, 15, 16];
    assert_eq!(pairs_of_class(1, &starts, &[9; 16]), Outcome::done(0, 0, 2));
    assert_eq!(
        pairs_of_class(10, &starts, &[9; 16]),
        Outcome::done(0, 15, 16)
    );
    assert_eq!(pairs_of_class(11, &starts, &[9; 16]), Outcome::refused(14));
    assert_eq!(sequence_lookup(&[], &ENTRIES), Outcome::done(0, 0, 6));
    assert_eq!(sequence_lookup(&[1, 2], &ENTRIES), Outcome::done(0, 14, 18));
    assert_eq!(sequence_lookup(&[4, 4], &ENTRIES), Outcome::done(0, 0, 0));
    assert_eq!(
        sequence_lookup(&[4, 3], &ENTRIES[..27]),
        Outcome::done(0, 0, 0)
    );
}
