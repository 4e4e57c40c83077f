//! The check: finer tables accepted, coarser ones refused, each fault named where it stands.

use second::generate::damage::{finer, Stored};
use second::generate::graphs::small;
use second::generate::random::Random;
use second::*;

const EDGES: [u32; 9] = [0, 2, 0, 1, 2, 0, 3, 2, 1];

/// The tables of the example at k = 2, cut to their counts.
fn example() -> Tables {
    let lent = Tables {
        levels: vec![0; 32],
        starts: vec![0; 17],
        order: vec![0; 16],
        entries: vec![0; 28],
        area: vec![7; 150],
    };
    let (outcome, mut tables) = build(4, 2, 2, &EDGES, lent);
    assert_eq!(outcome, Outcome::done(10, 16, 14));
    tables.starts.truncate(11);
    tables.area.fill(7);
    tables
}

/// What the check says after a change; it leaves the tables alone and the area zero.
fn after(change: impl FnOnce(&mut Tables)) -> Outcome {
    let mut tables = example();
    change(&mut tables);
    let (outcome, mut left) = check(4, 2, 2, &EDGES, tables.clone());
    assert_eq!(left.area[..144], [0; 144]);
    assert_eq!(left.area[144..], [7; 6]);
    left.area = tables.area.clone();
    assert_eq!(left, tables);
    outcome
}

#[test]
fn as_built() {
    assert_eq!(after(|_| ()), Outcome::done(0, 0, 0));
    assert_eq!(
        after(|tables| tables.levels.extend([8, 8])),
        Outcome::done(0, 0, 0)
    );
}

/// Pair (1,1) leaves class 1 of level 2 for a class of its own, all numbers after it follow.
#[test]
fn a_finer_table_is_accepted() {
    let outcome = after(|tables| {
        let level = [1, 2, 3, 4, 2, 5, 3, 4, 6, 6, 7, 8, 9, 9, 10, 11];
        tables.levels[16..].copy_from_slice(&level);
        tables.starts = vec![0, 1, 3, 5, 7, 8, 10, 11, 12, 14, 15, 16];
        tables.order = vec![0, 1, 4, 2, 6, 3, 7, 5, 8, 9, 10, 11, 12, 13, 14, 15];
        tables.entries = vec![
            0, 1, 0, 5, 0, 7, 0, 11, 1, 3, 2, 6, 3, 10, 4, 8, 19, 1, 19, 2, 19, 5, 21, 4, 35, 7,
            53, 9, 55, 11, 71, 7,
        ];
    });
    assert_eq!(outcome, Outcome::done(0, 0, 0));
}

#[test]
fn generated_finer_tables_are_accepted() {
    let mut different = 0;
    for index in 0..400 {
        let random = &mut Random::new(5, index);
        let mut plan = small(random);
        plan.k = plan.k.min(if plan.labels > 2 { 2 } else { 3 });
        let built = Stored::built(&plan);
        let mut stored = built.clone();
        finer(random, &plan, &mut stored);
        different += usize::from(stored.levels != built.levels);
        let tables = Tables {
            levels: stored.levels.concat(),
            starts: stored.starts,
            order: stored.order,
            entries: stored.entries,
            area: vec![7; 9 * plan.pairs()],
        };
        let (outcome, _) = check(plan.items, plan.labels, plan.k, &plan.edges, tables);
        assert_eq!(outcome, Outcome::done(0, 0, 0), "{plan:?}");
    }
    assert!(different > 200);
}

/// Classes 1 and 6 hold equal pairs of different kinds: one class of both is too coarse.
#[test]
fn a_coarser_table_is_refused() {
    let outcome = after(|tables| {
        let level = [1, 2, 3, 4, 2, 1, 3, 4, 5, 5, 1, 6, 7, 7, 8, 9];
        tables.levels[16..].copy_from_slice(&level);
    });
    assert_eq!(outcome, Outcome::refused_with(15, 2, 10));
}

#[test]
fn level_faults() {
    let fault = |level, position| Outcome::refused_with(15, level, position);
    // a connected pair with 0, an unconnected one with a number
    assert_eq!(after(|tables| tables.levels[2] = 0), fault(1, 2));
    assert_eq!(after(|tables| tables.levels[1] = 1), fault(1, 1));
    // a number two above the largest before it, and far above
    assert_eq!(after(|tables| tables.levels[16] = 2), fault(2, 0));
    assert_eq!(after(|tables| tables.levels[31] = u32::MAX), fault(2, 15));
    // a number one above the largest, that leaves a later pair without its first one
    assert_eq!(after(|tables| tables.levels[18] = 2), fault(2, 2));
    // the first of two faulty levels, the first of two positions
    let both = after(|tables| {
        tables.levels[16] = 0;
        tables.levels[15] = 9;
        tables.levels[14] = 0;
    });
    assert_eq!(both, fault(1, 14));
}

#[test]
fn list_faults() {
    let starts = |index| Outcome::refused_with(16, 1, index);
    let order = |index| Outcome::refused_with(16, 2, index);
    let entries = |index| Outcome::refused_at(17, index);
    assert_eq!(after(|tables| tables.starts[3] = 7), starts(3));
    assert_eq!(after(|tables| tables.starts.push(16)), starts(11));
    assert_eq!(after(|tables| tables.starts.clear()), starts(0));
    assert_eq!(after(|tables| tables.order.swap(2, 3)), order(2));
    assert_eq!(after(|tables| tables.order.truncate(15)), order(15));
    assert_eq!(after(|tables| tables.entries[27] = 7), entries(27));
    assert_eq!(after(|tables| tables.entries.truncate(27)), entries(27));
    assert_eq!(after(|tables| tables.entries.push(71)), entries(28));
    let all = after(|tables| {
        tables.entries.clear();
        tables.order.clear();
        tables.starts[10] = 0;
    });
    assert_eq!(all, starts(10));
}
