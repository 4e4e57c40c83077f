//! What the generators promise: cases that can be read back, within the lengths of
//! docs/TRIAL.md, and among them every refusal of every entry.

use second::case::{shape, Case};
use second::generate::{cases, inputs};
use second::kinds::kinds;
use second::program::answer;
use std::collections::BTreeSet;

#[test]
fn cases_can_be_read_back() {
    for index in 0..2000 {
        let case = cases::case(3, index);
        let line = case.print();
        assert_eq!(Case::parse(&line), Ok(case), "{line}");
    }
}

#[test]
fn runs_are_only_another_way_to_write() {
    let short = Case::parse("P 1 3 0 2*4 4 5 3*1");
    assert_eq!(short, Case::parse("P 1 3 0 4 4 4 5 1 1 1"));
    let case = short.expect("a good line");
    assert_eq!(case.print(), "P 1 3 0 4 4 4 5 3*1");
    assert_eq!(case.expected(), "0 0 0 4 3 0 4 4 4 5 3*1");
}

/// The examples of docs/TRIAL.md.
#[test]
fn documented_examples() {
    let examples = [
        ("P 1 3 0 2 4 4 0 5 1 4", "0 0 0 2 3 0 2 4 4 0 5 1 4"),
        (
            "D 4 2 9 0 2 0 1 2 0 3 2 1 3 1 2 32 5 5*900 146 146*7",
            "0 4 0 0 9 0 2 0 1 2 0 3 2 1 3 1 2 32 5 0 1 4 5 900 146 144*0 7 7",
        ),
        (
            "D 4 2 9 0 2 0 1 2 0 3 2 1 3 1 2 32 3 3*900 146 146*7",
            "13 4 0 0 9 0 2 0 1 2 0 3 2 1 3 1 2 32 3 3*900 146 144*0 7 7",
        ),
    ];
    for (line, expected) in examples {
        let case = Case::parse(line).expect("a good line");
        assert_eq!(case.expected(), expected);
    }
}

#[test]
fn lines_that_are_no_case() {
    let lines = [
        "",
        "X",
        "P",
        "P 1 2 0",
        "P 1 0 0 0",
        "L 1 256 0",
        "L -1",
        "L 81*1 0",
    ];
    for line in lines {
        assert!(Case::parse(line).is_err(), "{line}");
    }
}

#[test]
fn every_refusal_of_every_entry_occurs() {
    let mut met = BTreeSet::new();
    for index in 0..20_000 {
        let case = cases::case(1, index);
        let (_, kinds) = shape(case.entry).expect("an entry");
        for (kind, list) in kinds.iter().zip(&case.lists) {
            assert!(list.len() <= kind.most());
        }
        met.insert((case.entry, case.run().0.number));
    }
    let refusals: [(char, &[u32]); 7] = [
        ('B', &[0, 1, 2, 3, 4, 5, 6]),
        ('C', &[0, 1, 2, 3, 4, 5, 15, 16, 17]),
        ('D', &[0, 1, 3, 4, 5, 7, 8, 9, 10, 11, 13]),
        ('K', &[0, 1, 2, 5, 7, 8, 9, 10, 11, 12, 13]),
        ('L', &[0, 8, 12]),
        ('P', &[0, 14]),
        ('S', &[0, 1, 5, 7, 8, 9, 10, 11, 13]),
    ];
    let mut all = BTreeSet::new();
    for (entry, numbers) in refusals {
        all.extend(numbers.iter().map(|number| (entry, *number)));
    }
    assert_eq!(met, all);
}

/// What each entry has to meet: the limits of its sizes, each buffer too short, exact, longer and
/// filled beforehand, and tables as no builder leaves them.
#[test]
fn every_kind_of_case_occurs() {
    let mut met = BTreeSet::new();
    for index in 0..20_000 {
        met.extend(kinds(&cases::case(1, index)));
    }
    let numbers: [(&str, &str, &[u32]); 6] = [
        ("BCDSK", "items", &[0, 1, 127, 128, 129]),
        ("BCDSK", "labels", &[0, 1, 8, 9]),
        ("BCK", "k", &[0, 1, 4, 5]),
        ("BCD", "edges", &[4096, 4097]),
        ("DSK", "tokens", &[64, 65]),
        ("DSK", "operands", &[8, 9]),
    ];
    for (entries, name, values) in numbers {
        for value in values {
            expect_kind(&met, entries, &format!("{name} {value}"));
        }
    }
    let buffers = [
        ("BC", "levels"),
        ("B", "starts"),
        ("B", "order"),
        ("B", "entries"),
        ("SK", "table"),
        ("DSK", "answers"),
        ("BCDSK", "area"),
    ];
    for (entries, buffer) in buffers {
        for room in ["short", "exact", "longer", "filled"] {
            expect_kind(&met, entries, &format!("{buffer} {room}"));
        }
    }
    for levels in ["changed", "merged", "split", "renumbered"] {
        expect_kind(&met, "C", &format!("levels {levels}"));
    }
    expect_kind(&met, "C", "as built");
    expect_kind(&met, "C", "finer and accepted");
    expect_kind(&met, "CSK", "class above V²");
    expect_kind(&met, "CSKL", "entries odd");
    expect_kind(&met, "CSKL", "entries unsorted");
}

fn expect_kind(met: &BTreeSet<String>, entries: &str, kind: &str) {
    for entry in entries.chars() {
        let named = format!("{entry} {kind}");
        assert!(met.contains(&named), "no case of {named}");
    }
}

#[test]
fn every_refusal_of_the_program_occurs() {
    let mut met = BTreeSet::new();
    for index in 0..2000 {
        let printed = answer(&inputs::input(1, index));
        for line in printed.split(|byte| *byte == b'\n') {
            met.insert(line[..line.len().min(4)].to_vec());
        }
    }
    for number in [1, 2, 4, 6, 7, 8, 9, 10, 11, 18] {
        let start = format!("FF{number:02X}").into_bytes();
        assert!(met.contains(&start), "refusal {number}");
    }
}

/// Just as many entries as there is room for, one less and one more; as many answers.
#[test]
fn inputs_meet_the_limits() {
    let mut met = BTreeSet::new();
    for index in 0..2000 {
        let printed = answer(&inputs::input(1, index));
        met.extend(printed.split(|byte| *byte == b'\n').map(<[u8]>::to_vec));
    }
    let ends = |end: &[u8]| {
        met.iter()
            .any(|line| line.starts_with(b"81") && line.ends_with(end))
    };
    assert!(ends(b"07FF") && ends(b"0800"));
    assert!(met.contains(b"FF0600000801".as_slice()));
    assert!(met.iter().any(|line| line.starts_with(b"830400")));
}
