//! Each refusal of direct, stored and class answers, with its values.
//! Where it comes before any work, nothing is written.

mod common;
use common::*;
use kavizhuran::*;

/// Faulty queries on document 01's table, that each of the three entries refuses before work.
#[test]
fn refusals_7_to_11_of_queries() {
    let nine = [[0; 8].as_slice(), &[1]].concat();
    let faulty: [(&[u8], Refusal); 10] = [
        (&[], Refusal::QueryLength),
        (&[99; MAX_TOKENS + 1], Refusal::QueryLength),
        (&[99; MAX_TOKENS], Refusal::Unknown { place: 0 }),
        (&[1, 5], Refusal::Unknown { place: 1 }),
        (&[0, 34], Refusal::Unknown { place: 1 }),
        (&[32], Refusal::FewOperands { place: 0 }),
        (&[1, 2, 32, 33, 99], Refusal::FewOperands { place: 3 }),
        (&nine, Refusal::NinthOperand { place: 8 }),
        (&[0; MAX_WAITING], Refusal::OperandsLeft),
        (&[1, 2], Refusal::OperandsLeft),
    ];
    for (tokens, expected) in faulty {
        for ask in [ask_direct, ask_stored, ask_class] {
            // the working area is too short, but that comes later
            let asked = ask(tokens, 9, 143);
            assert_eq!(asked.result, Err(expected));
            assert!(asked.untouched());
        }
    }
}

#[test]
fn refusals_1_to_4_of_queries() {
    let direct_on = |items, labels, edges: &[u32]| {
        let asked = Asked::new(9, 150, |answers, area| {
            direct(items, labels, edges, &[], answers, area).map(|part| part.to_vec())
        });
        assert!(asked.untouched());
        asked.result.unwrap_err()
    };
    assert_eq!(direct_on(129, 2, &[0]), Refusal::Sizes);
    assert_eq!(direct_on(4, 0, &[0]), Refusal::Sizes);
    assert_eq!(direct_on(4, 2, &[0]), Refusal::EdgeCount);
    assert_eq!(direct_on(4, 2, &[4, 0, 0]), Refusal::Edge { edge: 0 });
    assert_eq!(direct_on(4, 2, &EDGES), Refusal::QueryLength);

    let class_on = |items, labels, k| {
        let asked = Asked::new(9, 150, |answers, area| {
            class(items, labels, k, TABLES.stored(4, 2), &[], answers, area).map(<[u32]>::to_vec)
        });
        assert!(asked.untouched());
        asked.result.unwrap_err()
    };
    assert_eq!(class_on(129, 2, 0), Refusal::Sizes);
    assert_eq!(class_on(4, 9, 0), Refusal::Sizes);
    assert_eq!(class_on(4, 2, 0), Refusal::LevelCount);
    assert_eq!(class_on(4, 2, 5), Refusal::LevelCount);
    assert_eq!(class_on(4, 2, 4), Refusal::QueryLength);

    let stored_on = |items, labels| {
        let asked = Asked::new(9, 150, |answers, area| {
            stored(items, labels, TABLES.stored(4, 2), &[], answers, area).map(<[u32]>::to_vec)
        });
        assert!(asked.untouched());
        asked.result.unwrap_err()
    };
    assert_eq!(stored_on(129, 2), Refusal::Sizes);
    assert_eq!(stored_on(4, 0), Refusal::Sizes);
    assert_eq!(stored_on(4, 2), Refusal::QueryLength);
}

#[test]
fn refusal_5_of_queries() {
    for ask in [ask_direct, ask_stored, ask_class] {
        let asked = ask(&[1], 0, 143);
        assert_eq!(asked.result, Err(Refusal::Room));
        assert!(asked.untouched());
    }
    // tables without the level, and with a number too few
    let short = Stored {
        table: &LEVELS[..15],
        entries: &ENTRIES,
    };
    for tables in [TABLES.stored(4, 3), TABLES.stored(4, 0), short] {
        let by_pair = Asked::new(9, 150, |answers, area| {
            stored(4, 2, tables, &[1], answers, area).map(<[u32]>::to_vec)
        });
        assert_eq!(by_pair.result, Err(Refusal::Room));
        assert!(by_pair.untouched());
        let by_class = Asked::new(9, 150, |answers, area| {
            class(4, 2, 2, tables, &[1], answers, area).map(<[u32]>::to_vec)
        });
        assert_eq!(by_class.result, Err(Refusal::Room));
        assert!(by_class.untouched());
    }
}

#[test]
fn refusal_12_of_class() {
    // it comes before 5
    let asked = ask_class(&[1, 2, 32, 1, 32], 9, 143);
    assert_eq!(asked.result, Err(Refusal::TooLong));
    assert!(asked.untouched());
}

#[test]
fn refusal_13_of_queries() {
    let asks = [ask_direct, ask_stored, ask_class];
    for (ask, needed) in asks.into_iter().zip([4, 4, 2]) {
        for room in 0..needed {
            let asked = ask(&[1, 2, 32], room as usize, 150);
            assert_eq!(asked.result, Err(Refusal::AnswerRoom { needed }));
            assert!(asked.holds(&[], 144));
        }
    }
}
