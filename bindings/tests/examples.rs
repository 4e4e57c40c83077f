//! P1 to P12 of document 01 through the wrappers.

mod common;
use common::*;
use kavizhuran::*;

/// Answered in full, with longer lists than are asked for.
fn answered(asked: Asked) -> Vec<u32> {
    let answers = asked.result.clone().expect("it is answered");
    assert!(asked.holds(&answers, 144));
    answers
}

#[test]
fn p1_to_p5_tables() {
    let mut lent = Lent::new(4, 2, 15);
    let built = lent.build(4, 2, 2, &EDGES).unwrap();
    assert_eq!(
        built,
        Built {
            classes: 10,
            pairs: 16,
            entries: 14
        }
    );
    assert_eq!(lent.levels[..32], LEVELS);
    assert_eq!(lent.starts[..11], STARTS);
    assert_eq!(lent.order[..16], ORDER);
    assert_eq!(lent.entries[..28], ENTRIES);
    let tables = lent.tables().cut(built);
    assert_eq!(
        tables,
        Tables {
            levels: &lent.levels,
            ..TABLES
        }
    );
}

#[test]
fn p6_along_and_back() {
    assert_eq!(answered(ask_direct(&[1, 2, 32], 9, 150)), [0, 1, 4, 5]);
    assert_eq!(answered(ask_stored(&[1, 2, 32], 9, 150)), [0, 1, 4, 5]);
    assert_eq!(answered(ask_class(&[1, 2, 32], 9, 150)), [1, 2]);
}

#[test]
fn p7_diameter_3() {
    let tokens = [1, 2, 32, 1, 32];
    assert_eq!(answered(ask_direct(&tokens, 9, 150)), [2, 6]);
    assert_eq!(answered(ask_stored(&tokens, 9, 150)), [2, 6]);
    let refused = ask_class(&tokens, 9, 150);
    assert_eq!(refused.result, Err(Refusal::TooLong));
    assert!(refused.untouched());
}

#[test]
fn p8_p9_p10_refused_queries() {
    for ask in [ask_direct, ask_stored, ask_class] {
        let result = |tokens: &[u8]| ask(tokens, 9, 150).result;
        assert_eq!(result(&[5]), Err(Refusal::Unknown { place: 0 }));
        assert_eq!(result(&[1, 32]), Err(Refusal::FewOperands { place: 1 }));
        assert_eq!(result(&[1, 2]), Err(Refusal::OperandsLeft));
    }
}

#[test]
fn p11_entry_room() {
    let mut lent = Lent::new(4, 2, 13);
    let result = lent.build(4, 2, 2, &EDGES);
    assert_eq!(result, Err(Refusal::EntryRoom { needed: 14 }));
}

#[test]
fn p12_no_items() {
    let mut lent = Lent::new(0, 1, 0);
    let built = lent.build(0, 1, 1, &[]).unwrap();
    assert_eq!(
        built,
        Built {
            classes: 0,
            pairs: 0,
            entries: 0
        }
    );
    assert_eq!(lent.starts, [0, FILL, FILL, FILL]);
    assert_eq!(
        Lent {
            starts: vec![FILL; 4],
            ..lent
        },
        Lent::new(0, 1, 0)
    );
    let asked = Asked::new(2, 0, |answers, area| {
        direct(0, 1, &[], &[0], answers, area).map(|part| part.to_vec())
    });
    assert_eq!(asked.result, Ok(vec![]));
    assert!(asked.untouched());
}

#[test]
fn what_is_built_is_accepted() {
    let mut area = [FILL_BYTE; 150];
    assert_eq!(check(4, 2, 2, &EDGES, TABLES, &mut area), Ok(()));
    assert!(zeroed(&area, 144));
}

#[test]
fn pairs_of_a_class() {
    assert_eq!(class_pairs(1, &STARTS, &ORDER), Ok(&[0, 5][..]));
    assert_eq!(class_pairs(10, &STARTS, &ORDER), Ok(&[15][..]));
    assert_eq!(class_pairs(1, &[3, 3], &ORDER), Ok(&[][..]));
}

#[test]
fn sequences() {
    assert_eq!(lookup(&[], &ENTRIES), Ok(&[0, 1, 0, 6, 0, 10][..]));
    assert_eq!(lookup(&[1, 2], &ENTRIES), Ok(&[19, 1, 19, 2][..]));
    assert_eq!(lookup(&[4, 3], &ENTRIES), Ok(&[71, 6][..]));
    assert_eq!(lookup(&[4, 4], &ENTRIES), Ok(&[][..]));
    // a lone last number is not read
    assert_eq!(lookup(&[4, 3], &ENTRIES[..27]), Ok(&[][..]));
}

#[test]
fn joins_go_left_to_right() {
    assert_eq!(answered(ask_direct(&[2, 1, 32], 9, 150)), [10]);
    assert_eq!(answered(ask_stored(&[2, 1, 32], 9, 150)), [10]);
}
