//! The register and the index that own their lists, and queries as tokens.

mod common;
use common::*;
use kavizhuran::*;

fn register() -> Register {
    let mut register = Register::new(4, 2);
    for edge in EDGES.chunks(3) {
        register.add(edge[0], edge[1], edge[2]);
    }
    register
}

#[test]
fn queries_as_tokens() {
    let step = Query::step;
    assert_eq!(Query::identity().tokens(), [0]);
    assert_eq!(step(7).tokens(), [15]);
    assert_eq!(Query::back(7).tokens(), [16]);
    // labels that no register has are no other token by accident: 2·16 + 1 is conjunction
    assert_eq!(step(16).tokens(), [255]);
    assert_eq!(Query::back(u32::MAX).tokens(), [255]);
    let right = step(0).then(step(1).then(Query::back(0)));
    assert_eq!(right.tokens(), [1, 3, 2, 32, 32]);
    assert_eq!(right.diameter(), 3);
    let left = step(0).then(step(1)).and(Query::identity());
    assert_eq!(left.tokens(), [1, 3, 32, 0, 33]);
    assert_eq!(left.diameter(), 2);
}

#[test]
fn the_document_s_table() {
    let mut register = register();
    assert_eq!(register.edges(), EDGES);
    let mut index = register.index(2).unwrap();
    assert_eq!(
        index.built(),
        Built {
            classes: 10,
            pairs: 16,
            entries: 14
        }
    );
    assert_eq!(index.tables(), TABLES);
    let there_and_back = Query::step(0).then(Query::back(0));
    assert_eq!(register.ask(&there_and_back), Ok(&[0, 1, 4, 5][..]));
    assert_eq!(index.ask(&there_and_back), Ok(&[0, 1, 4, 5][..]));
    assert_eq!(index.classes(&there_and_back), Ok(&[1, 2][..]));
    assert_eq!(index.pairs(2), Ok(&[1, 4][..]));
    assert_eq!(
        index.lookup(&[forward(0), backward(0)]),
        Ok(&[19, 1, 19, 2][..])
    );
    let longer = there_and_back.then(Query::step(0));
    assert_eq!(index.ask(&longer), Ok(&[2, 6][..]));
    assert_eq!(index.classes(&longer), Err(Refusal::TooLong));
    assert_eq!(
        index.ask(&Query::step(2)),
        Err(Refusal::Unknown { place: 0 })
    );
    assert_eq!(index.pairs(0), Err(Refusal::NoClass));
}

#[test]
fn tables_made_elsewhere() {
    let mut register = register();
    let mut index = register.accept(2, TABLES).unwrap();
    assert_eq!(index.tables(), TABLES);
    assert_eq!(index.ask(&Query::step(1)), Ok(&[14][..]));
    let short = Tables {
        entries: &ENTRIES[..26],
        ..TABLES
    };
    let refused = register.accept(2, short).map(|_| ());
    assert_eq!(refused, Err(Refusal::EntryFault { index: 26 }));
    // with an edge more (0,3) is connected within 1, and its number there is 0
    register.add(0, 3, 0);
    let refused = register.accept(2, TABLES).map(|_| ());
    let fault = Refusal::LevelFault {
        level: 1,
        position: 3,
    };
    assert_eq!(refused, Err(fault));
}

/// Step symbols of all sixteen kinds lead on from every item, and all items are alike: each of the
/// 1 + 16 + 16² + 16³ sequences of up to 3 symbols is listed with one class.
#[test]
fn a_second_try_with_the_room_needed() {
    let mut register = Register::new(6, 8);
    for label in 0..8 {
        for item in 0..6 {
            register.add(item, (item + label) % 6, label);
        }
    }
    let mut index = register.index(3).unwrap();
    assert_eq!(index.built().entries, 4369);
    assert_eq!(index.tables().entries.len(), 2 * 4369);
    let copy = register.accept(3, index.tables()).unwrap();
    assert_eq!(copy.built(), index.built());
    let query = Query::step(1).then(Query::step(2)).and(Query::step(3));
    let found = register.ask(&query).unwrap().to_vec();
    assert_eq!(found, [3, 10, 17, 18, 25, 32]);
    assert_eq!(index.ask(&query), Ok(&found[..]));
}

#[test]
fn sizes_are_tested_when_something_is_asked() {
    let mut large = Register::new(u32::MAX, 1);
    assert_eq!(large.ask(&Query::identity()), Err(Refusal::Sizes));
    assert_eq!(large.index(1).map(|_| ()), Err(Refusal::Sizes));
    let mut small = Register::new(2, 1);
    assert_eq!(small.index(u32::MAX).map(|_| ()), Err(Refusal::LevelCount));
    small.add(0, 2, 0);
    assert_eq!(
        small.ask(&Query::identity()),
        Err(Refusal::Edge { edge: 0 })
    );
    assert_eq!(small.index(1).map(|_| ()), Err(Refusal::Edge { edge: 0 }));
}

#[test]
fn no_items() {
    let mut register = Register::new(0, 1);
    assert_eq!(register.ask(&Query::identity()), Ok(&[][..]));
    let mut index = register.index(4).unwrap();
    assert_eq!(
        index.built(),
        Built {
            classes: 0,
            pairs: 0,
            entries: 0
        }
    );
    assert_eq!(index.ask(&Query::identity()), Ok(&[][..]));
    assert_eq!(index.classes(&Query::step(0)), Ok(&[][..]));
}
