//! Each refusal of build and check, with its values, and of the two entries that hand back a part.
//! Where it comes before any work, nothing is written.

mod common;
use common::*;
use kavizhuran::*;

/// Refused before any work by build and by check, on two items but for what is asked.
fn tables_refused(sizes: [u32; 3], edges: &[u32], expected: Refusal) {
    let [items, labels, k] = sizes;
    let before = Lent::new(2, 1, 20);
    let mut lent = before.clone();
    assert_eq!(lent.build(items, labels, k, edges), Err(expected));
    assert_eq!(lent, before);
    let result = check(items, labels, k, edges, before.tables(), &mut lent.area);
    assert_eq!(result, Err(expected));
    assert_eq!(lent, before);
}

#[test]
fn refusals_1_2_3_4_of_build_and_check() {
    tables_refused([129, 1, 1], &[], Refusal::Sizes);
    tables_refused([u32::MAX, 1, 1], &[], Refusal::Sizes);
    tables_refused([2, 0, 1], &[], Refusal::Sizes);
    tables_refused([2, 9, 1], &[], Refusal::Sizes);
    tables_refused([2, 1, 0], &[], Refusal::LevelCount);
    tables_refused([2, 1, 5], &[], Refusal::LevelCount);
    tables_refused([2, 1, 1], &[0, 1], Refusal::EdgeCount);
    tables_refused([2, 1, 1], &[0; 3 * (MAX_EDGES + 1)], Refusal::EdgeCount);
    for edge in [[2, 0, 0], [0, 2, 0], [0, 0, 1], [u32::MAX, 0, 0]] {
        let edges = [[0, 1, 0], edge, [9, 9, 9]].concat();
        tables_refused([2, 1, 1], &edges, Refusal::Edge { edge: 1 });
    }
    // two faults at once: the first in order
    tables_refused([129, 1, 0], &[0], Refusal::Sizes);
    tables_refused([2, 1, 0], &[0], Refusal::LevelCount);
}

#[test]
fn refusal_5_of_build_and_check() {
    let cuts: [fn(&mut Lent); 4] = [
        |lent| lent.levels.truncate(levels_len(2, 3) - 1),
        |lent| lent.area.truncate(area_len(2) - 1),
        |lent| lent.order.truncate(order_len(2) - 1),
        |lent| lent.starts.truncate(starts_len(2) - 1),
    ];
    for (place, cut) in cuts.into_iter().enumerate() {
        let mut before = Lent::new(2, 3, 0);
        cut(&mut before);
        let mut lent = before.clone();
        assert_eq!(lent.build(2, 1, 3, &[]), Err(Refusal::Room));
        assert_eq!(lent, before);
        // the check refuses no short starts or order as such
        if place < 2 {
            let result = check(2, 1, 3, &[], before.tables(), &mut lent.area);
            assert_eq!(result, Err(Refusal::Room));
            assert_eq!(lent, before);
        }
    }
}

#[test]
fn refusal_6_leaves_the_entries() {
    // two items, one edge: the entries (0,1) (1,2) (2,3)
    let mut lent = Lent::new(2, 1, 2);
    lent.entries.push(FILL); // a lone number is no room
    assert_eq!(
        lent.build(2, 1, 1, &[0, 1, 0]),
        Err(Refusal::EntryRoom { needed: 3 })
    );
    assert_eq!(lent.levels, [1, 2, 3, 1, FILL, FILL, FILL]);
    assert_eq!(lent.starts, [0, 2, 3, 4, FILL, FILL, FILL, FILL]);
    assert_eq!(lent.order, [0, 3, 1, 2, FILL, FILL, FILL]);
    assert_eq!(lent.entries, [FILL; 5]);
    assert!(zeroed(&lent.area, 36));
}

#[test]
fn refusals_12_and_8_of_lookup() {
    let five = [99; MAX_SYMBOLS + 1];
    assert_eq!(lookup(&five, &ENTRIES), Err(Refusal::TooLong));
    assert_eq!(
        lookup(&[1, 0], &ENTRIES),
        Err(Refusal::Unknown { place: 1 })
    );
    assert_eq!(
        lookup(&[16, 16, 17], &ENTRIES),
        Err(Refusal::Unknown { place: 2 })
    );
    assert_eq!(
        lookup(&[forward(8)], &ENTRIES),
        Err(Refusal::Unknown { place: 0 })
    );
}

#[test]
fn refusal_14_of_class_pairs() {
    let refused = Err(Refusal::NoClass);
    assert_eq!(class_pairs(0, &STARTS, &ORDER), refused);
    assert_eq!(class_pairs(11, &STARTS, &ORDER), refused);
    assert_eq!(class_pairs(u32::MAX, &STARTS, &ORDER), refused);
    assert_eq!(class_pairs(1, &[], &ORDER), refused);
    assert_eq!(class_pairs(1, &[2, 1], &ORDER), refused);
    assert_eq!(class_pairs(10, &STARTS, &ORDER[..15]), refused);
    assert_eq!(class_pairs(1, &[0, u32::MAX], &ORDER), refused);
}

/// Check on damaged tables of document 01's table: refused after work, so the area is zero as far
/// as it is asked for.
fn checked(tables: Tables) -> Refusal {
    let mut area = [FILL_BYTE; 147];
    let result = check(4, 2, 2, &EDGES, tables, &mut area);
    assert!(zeroed(&area, 144));
    result.unwrap_err()
}

#[test]
fn refusal_15_of_check() {
    let with = |levels: &[u32]| checked(Tables { levels, ..TABLES });
    let fault = |level, position| Refusal::LevelFault { level, position };
    let mut levels = LEVELS;
    levels[16 + 9] = 7; // two above the largest before it, 5
    assert_eq!(with(&levels), fault(2, 9));
    levels[16 + 9] = 6; // a class of its own, but then the pair at 10 does not agree with it
    assert_eq!(with(&levels), fault(2, 10));
    levels[1] = 1; // a pair that is not connected within 1
    assert_eq!(with(&levels), fault(1, 1));
}

#[test]
fn refusal_16_of_check() {
    let with_starts = |starts: &[u32]| checked(Tables { starts, ..TABLES });
    let with_order = |order: &[u32]| checked(Tables { order, ..TABLES });
    let fault = |list, index| Refusal::ListFault { list, index };
    let mut starts = STARTS;
    starts[4] = 7;
    assert_eq!(with_starts(&starts), fault(List::Starts, 4));
    assert_eq!(with_starts(&STARTS[..10]), fault(List::Starts, 10));
    assert_eq!(with_order(&[]), fault(List::Order, 0));
    assert_eq!(
        with_order(&[&ORDER[..], &[0]].concat()),
        fault(List::Order, 16)
    );
}

#[test]
fn refusal_17_of_check() {
    let with = |entries: &[u32]| checked(Tables { entries, ..TABLES });
    let mut entries = ENTRIES;
    entries[27] = 5;
    assert_eq!(with(&entries), Refusal::EntryFault { index: 27 });
    assert_eq!(with(&ENTRIES[..26]), Refusal::EntryFault { index: 26 });
}
