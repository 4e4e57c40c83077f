//! Each refusal, its value, the order of two faults at once, and what stays unwritten.

use second::answers::Sizes;
use second::*;

/// Build on two items, all buffers of the exact size but for what `change` does.
fn build_after(sizes: [u32; 3], edges: &[u32], change: impl FnOnce(&mut Tables)) -> Outcome {
    let mut lent = Tables {
        levels: vec![9; 4],
        starts: vec![9; 5],
        order: vec![9; 4],
        entries: vec![9; 20],
        area: vec![9; 36],
    };
    change(&mut lent);
    let (outcome, after) = build(sizes[0], sizes[1], sizes[2], edges, lent.clone());
    assert_eq!(outcome.number == 0, after != lent);
    outcome
}

fn none(_: &mut Tables) {}

#[test]
fn sizes_and_edges() {
    let refused = Outcome::refused;
    assert_eq!(build_after([2, 1, 1], &[0, 1, 0], none).number, 0);
    assert_eq!(build_after([129, 1, 1], &[], none), refused(1));
    assert_eq!(build_after([65_536, 1, 1], &[], none), refused(1));
    assert_eq!(build_after([2, 0, 1], &[], none), refused(1));
    assert_eq!(build_after([2, 9, 0], &[], none), refused(1));
    assert_eq!(build_after([2, 8, 0], &[0], none), refused(2));
    assert_eq!(build_after([2, 8, 5], &[], none), refused(2));
    assert_eq!(build_after([2, 1, 1], &[7, 7], none), refused(3));
    assert_eq!(build_after([2, 1, 1], &[7; 3 * 4097], none), refused(3));
    assert_eq!(build_after([2, 1, 1], &[0; 3 * 4096], none).number, 0);
    for edge in [[0, 2, 0], [2, 0, 0], [0, 0, 1], [u32::MAX, 0, 0]] {
        let edges = [[1, 1, 0], edge, [9, 9, 9]].concat();
        let outcome = build_after([2, 1, 1], &edges, |lent| lent.area.clear());
        assert_eq!(outcome, Outcome::refused_at(4, 1));
    }
}

#[test]
fn buffers() {
    let short = Outcome::refused(5);
    let sizes = [2, 1, 1];
    let cuts: [fn(&mut Tables); 4] = [
        |lent| lent.area.truncate(35),
        |lent| lent.levels.truncate(3),
        |lent| lent.order.truncate(3),
        |lent| lent.starts.truncate(4),
    ];
    for cut in cuts {
        assert_eq!(build_after(sizes, &[], cut), short);
    }
    let both = |lent: &mut Tables| {
        lent.starts.pop();
        lent.entries.clear();
    };
    assert_eq!(build_after(sizes, &[], both), short);
}

#[test]
fn entry_room_counts_whole_entries() {
    let lent = Tables {
        levels: vec![9; 4],
        starts: vec![9; 5],
        order: vec![9; 4],
        entries: vec![9; 5],
        area: vec![9; 37],
    };
    // (0,1)(1,2)(2,3): three entries, room for two and a lone number
    let (outcome, after) = build(2, 1, 1, &[0, 1, 0], lent);
    assert_eq!(outcome, Outcome::refused_at(6, 3));
    assert_eq!(after.levels, [1, 2, 3, 1]);
    assert_eq!(after.starts, [0, 2, 3, 4, 9]);
    assert_eq!(after.order, [0, 3, 1, 2]);
    assert_eq!(after.entries, [9; 5]);
    assert_eq!(after.area, [vec![0; 36], vec![9]].concat());
}

fn direct(labels: u32, edges: &[u32], tokens: &[u8], room: usize, area: usize) -> Answered {
    direct_answer(2, labels, edges, tokens, vec![9; room], vec![9; area])
}

fn class(k: u32, table: &[u32], tokens: &[u8], room: usize, area: usize) -> Answered {
    let sizes = Sizes {
        items: 2,
        labels: 1,
        k,
    };
    class_answer(sizes, table, &[1, 5], tokens, vec![9; room], vec![9; area])
}

#[test]
fn queries() {
    let number = |tokens: &[u8]| direct(1, &[], tokens, 4, 0).outcome;
    assert_eq!(number(&[]), Outcome::refused(7));
    assert_eq!(number(&[99; 65]), Outcome::refused(7));
    assert_eq!(number(&[0; 64]), Outcome::refused_at(10, 8));
    assert_eq!(number(&[0; 8]), Outcome::refused(11));
    assert_eq!(number(&[0, 3]), Outcome::refused_at(8, 1));
    assert_eq!(
        number(&[[0; 8].as_slice(), &[3, 0]].concat()),
        Outcome::refused_at(8, 8)
    );
    assert_eq!(number(&[0, 33, 3]), Outcome::refused_at(9, 1));
    assert_eq!(number(&[32]), Outcome::refused_at(9, 0));
    assert_eq!(number(&[0, 0, 32, 32]), Outcome::refused_at(9, 3));
    // past the query the working area counts
    assert_eq!(number(&[0]), Outcome::refused(5));
}

#[test]
fn the_order_of_direct() {
    assert_eq!(direct(9, &[7], &[], 0, 0).outcome, Outcome::refused(1));
    assert_eq!(direct(1, &[7], &[], 0, 0).outcome, Outcome::refused(3));
    assert_eq!(
        direct(1, &[0, 0, 7], &[], 0, 0).outcome,
        Outcome::refused_at(4, 0)
    );
    assert_eq!(direct(1, &[], &[], 0, 0).outcome, Outcome::refused(7));
    let untouched = direct(1, &[], &[0], 0, 35);
    assert_eq!(
        (untouched.outcome, untouched.area),
        (Outcome::refused(5), vec![9; 35])
    );
    let short = direct(1, &[], &[0], 1, 37);
    assert_eq!(short.outcome, Outcome::refused_at(13, 2));
    assert_eq!(short.answers, [9]);
    assert_eq!(short.area, [vec![0; 36], vec![9]].concat());
}

#[test]
fn the_order_of_class() {
    let table = [5, 0, 5, 6];
    assert_eq!(class(0, &[], &[], 0, 0).outcome, Outcome::refused(2));
    assert_eq!(class(5, &[], &[], 0, 0).outcome, Outcome::refused(2));
    assert_eq!(class(1, &[], &[], 0, 0).outcome, Outcome::refused(7));
    assert_eq!(class(1, &[], &[9], 0, 0).outcome, Outcome::refused_at(8, 0));
    assert_eq!(class(1, &[], &[1, 1], 0, 0).outcome, Outcome::refused(11));
    assert_eq!(
        class(1, &[], &[1, 1, 32], 0, 0).outcome,
        Outcome::refused(12)
    );
    assert_eq!(
        class(2, &table[..3], &[1, 1, 32], 0, 36).outcome,
        Outcome::refused(5)
    );
    assert_eq!(
        class(2, &table, &[0], 1, 36).outcome,
        Outcome::refused_at(13, 2)
    );
    let good = class(1, &table, &[0], 3, 36);
    assert_eq!(good.outcome, Outcome::done(2, 0, 0));
    assert_eq!(good.answers, [5, 6, 9]);
}

#[test]
fn the_order_of_stored() {
    let stored = |labels, table: &[u32], tokens: &[u8], area| {
        stored_answer(
            2,
            labels,
            table,
            &[1, 5, 1],
            tokens,
            vec![9; 1],
            vec![9; area],
        )
        .outcome
    };
    assert_eq!(stored(0, &[], &[], 0), Outcome::refused(1));
    assert_eq!(stored(1, &[], &[], 0), Outcome::refused(7));
    assert_eq!(stored(1, &[], &[1], 0), Outcome::refused(5));
    assert_eq!(stored(1, &[5; 3], &[1], 36), Outcome::refused(5));
    assert_eq!(stored(1, &[5; 5], &[1], 36), Outcome::refused_at(13, 4));
    assert_eq!(stored(1, &[6, 5, 0, 1], &[1], 36), Outcome::done(1, 0, 0));
}

#[test]
fn parts() {
    let refused = Outcome::refused(14);
    assert_eq!(pairs_of_class(0, &[0, 1], &[3]), refused);
    assert_eq!(pairs_of_class(2, &[0, 1], &[3]), refused);
    assert_eq!(pairs_of_class(u32::MAX, &[0, 1], &[3]), refused);
    assert_eq!(pairs_of_class(1, &[1, 0], &[3]), refused);
    assert_eq!(pairs_of_class(1, &[0, 2], &[3]), refused);
    assert_eq!(pairs_of_class(1, &[1, 1], &[3]), Outcome::done(0, 1, 1));
    assert_eq!(sequence_lookup(&[0; 5], &[]), Outcome::refused(12));
    assert_eq!(sequence_lookup(&[1, 17, 0], &[]), Outcome::refused_at(8, 1));
    assert_eq!(sequence_lookup(&[16, 0], &[]), Outcome::refused_at(8, 1));
    let entries = [2, 4, 1, 8, 1, 7, 3, 3, 1, 6];
    assert_eq!(sequence_lookup(&[1], &entries), Outcome::done(0, 2, 6));
    assert_eq!(
        sequence_lookup(&[16; 4], &[83_520, 1]),
        Outcome::done(0, 0, 2)
    );
}
