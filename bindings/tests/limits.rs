//! The largest sizes that are taken, and that nothing past the promised numbers changes.

mod common;
use common::*;
use kavizhuran::*;

#[test]
fn build_writes_no_more_than_its_tables() {
    let mut lent = Lent::new(4, 2, 16);
    let built = lent.build(4, 2, 2, &EDGES).unwrap();
    let behind = |list: &[u32], needed: usize| list[needed..].iter().all(|number| *number == FILL);
    assert!(behind(&lent.levels, levels_len(4, 2)));
    assert!(behind(&lent.starts, built.classes as usize + 1));
    assert!(behind(&lent.order, built.pairs as usize));
    assert!(behind(&lent.entries, 2 * built.entries as usize));
    assert!(zeroed(&lent.area, area_len(4)));
}

#[test]
fn exact_lengths_are_enough() {
    let mut lent = Lent::new(4, 2, 14);
    lent.levels.truncate(levels_len(4, 2));
    lent.starts.truncate(starts_len(4));
    lent.order.truncate(order_len(4));
    lent.area.truncate(area_len(4));
    let built = lent.build(4, 2, 2, &EDGES).unwrap();
    assert_eq!(lent.tables().cut(built), TABLES);
    assert_eq!(ask_direct(&[1, 2, 32], 4, 144).result, Ok(vec![0, 1, 4, 5]));
    assert_eq!(ask_stored(&[1, 2, 32], 4, 144).result, Ok(vec![0, 1, 4, 5]));
    assert_eq!(ask_class(&[1, 2, 32], 2, 144).result, Ok(vec![1, 2]));
}

/// A ring of 128 items along label 7, the last edge repeated as often as an edge table can hold it.
/// Its pairs are equal, neighbours one way or neighbours the other way.
fn ring() -> Vec<u32> {
    let mut edges: Vec<u32> = (0..127).flat_map(|item| [item, item + 1, 7]).collect();
    while edges.len() < 3 * MAX_EDGES {
        edges.extend([127, 0, 7]);
    }
    edges
}

#[test]
fn the_largest_register() {
    let mut lent = Lent::new(MAX_ITEMS, 1, 8);
    let built = lent.build(MAX_ITEMS, MAX_LABELS, 1, &ring()).unwrap();
    assert_eq!((built.classes, built.pairs, built.entries), (3, 3 * 128, 3));
    assert_eq!(lent.entries[..6], [0, 1, 15, 2, 16, 3]);
    assert!(zeroed(&lent.area, area_len(MAX_ITEMS)));
    let tables = lent.tables().cut(built);
    let neighbours = class_pairs(2, tables.starts, tables.order).unwrap();
    assert_eq!(neighbours.len(), 128);
    assert_eq!(pair(MAX_ITEMS, neighbours[127]), (127, 0));
}

#[test]
fn a_query_on_the_largest_register() {
    let query = Query::step(7).then(Query::step(7));
    let tokens = query.tokens();
    let asked = Asked::new(
        order_len(MAX_ITEMS),
        area_len(MAX_ITEMS),
        |answers, area| {
            direct(MAX_ITEMS, MAX_LABELS, &ring(), tokens, answers, area).map(<[u32]>::to_vec)
        },
    );
    let found: Vec<u32> = (0..128)
        .map(|item| position(MAX_ITEMS, item, (item + 2) % 128))
        .collect();
    assert_eq!(asked.result, Ok(found.clone()));
    assert!(asked.holds(&found, area_len(MAX_ITEMS)));
}

/// Operands and operators make an odd number of tokens, so 63 are the most that are answered.
#[test]
fn the_longest_query() {
    let mut tokens = vec![0; MAX_WAITING];
    tokens.extend([32; MAX_WAITING - 1]);
    while tokens.len() < MAX_TOKENS - 1 {
        tokens.extend([0, 33]);
    }
    assert_eq!(tokens.len(), 63);
    assert_eq!(ask_direct(&tokens, 9, 144).result, Ok(vec![0, 5, 10, 15]));
    tokens.push(0);
    assert_eq!(
        ask_direct(&tokens, 9, 144).result,
        Err(Refusal::OperandsLeft)
    );
    tokens.push(33);
    assert_eq!(
        ask_direct(&tokens, 9, 144).result,
        Err(Refusal::QueryLength)
    );
}

#[test]
fn lengths_never_overflow() {
    assert_eq!(area_len(128), 147_456);
    assert_eq!(area_len(u32::MAX), area_len(MAX_ITEMS));
    assert_eq!(
        levels_len(u32::MAX, u32::MAX),
        levels_len(MAX_ITEMS, MAX_LEVELS)
    );
    assert_eq!(starts_len(0), 1);
    let tables = TABLES.stored(u32::MAX, u32::MAX);
    assert!(tables.table.is_empty());
}
