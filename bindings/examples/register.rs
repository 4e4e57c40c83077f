//! A small lift register: two lifts, their parts, certificates, visits and makers. Builds the index,
//! has the check accept its tables, asks, and prints. `cargo run --example register`.
//!
//! It is the register of docs/REGISTER.md, with the same answers.

use kavizhuran::{pair, Index, Query, Refusal, Register};

/// Items by number.
const ITEMS: [&str; 11] = [
    "lift A",
    "lift B",
    "old brake",
    "door drive",
    "new brake",
    "certificate 5",
    "certificate 6",
    "visit in March",
    "visit in June",
    "maker 9",
    "maker 10",
];

/// Labels by number.
const LABELS: [&str; 5] = [
    "has part",
    "certified by",
    "replaces",
    "visited on",
    "made by",
];
const HAS_PART: u32 = 0;
const CERTIFIED_BY: u32 = 1;
const REPLACES: u32 = 2;
const VISITED_ON: u32 = 3;
const MADE_BY: u32 = 4;

const EDGES: [(u32, u32, u32); 14] = [
    (0, 2, HAS_PART),
    (0, 3, HAS_PART),
    (1, 3, HAS_PART),
    (1, 4, HAS_PART),
    (2, 5, CERTIFIED_BY),
    (3, 6, CERTIFIED_BY),
    (4, 6, CERTIFIED_BY),
    (4, 2, REPLACES),
    (0, 7, VISITED_ON),
    (1, 7, VISITED_ON),
    (0, 8, VISITED_ON),
    (2, 9, MADE_BY),
    (3, 10, MADE_BY),
    (4, 10, MADE_BY),
];

fn main() -> Result<(), Refusal> {
    let mut register = Register::new(ITEMS.len() as u32, LABELS.len() as u32);
    for (source, target, label) in EDGES {
        register.add(source, target, label);
    }
    let made = register.index(2)?;
    // Tables that come from a file or from elsewhere are taken over in just this way.
    let mut index = register.accept(2, made.tables())?;
    let built = index.built();
    println!(
        "the check accepts {} classes, {} connected pairs, {} entries",
        built.classes, built.pairs, built.entries
    );

    let covered = Query::step(HAS_PART).then(Query::step(CERTIFIED_BY));
    ask(
        &mut index,
        "certificates that cover a lift's parts",
        &covered,
    )?;
    let spare = Query::step(HAS_PART).then(Query::back(REPLACES));
    ask(&mut index, "what could replace a lift's part", &spare)?;
    let same_day = Query::step(VISITED_ON).then(Query::back(VISITED_ON));
    let same_part = Query::step(HAS_PART).then(Query::back(HAS_PART));
    let one_trip = same_day.and(same_part);
    ask(
        &mut index,
        "visited on one day, and sharing a part",
        &one_trip,
    )?;

    // The same by classes: all pairs of a class meet a query of diameter up to 2, or none does.
    for class in index.classes(&covered)?.to_vec() {
        println!("covered, class {class}: {:?}", index.pairs(class)?);
    }
    ask_too_far(
        &mut register,
        &mut index,
        covered.then(Query::back(CERTIFIED_BY)),
    )
}

/// A query of diameter 3 goes too far for the classes of two levels, not for the pairs.
fn ask_too_far(register: &mut Register, index: &mut Index, far: Query) -> Result<(), Refusal> {
    match index.classes(&far) {
        Err(refusal) => println!("by classes: {refusal}"),
        Ok(classes) => println!("by classes: {classes:?}"),
    }
    let from_edges = register.ask(&far)?;
    let from_tables = index.ask(&far)?;
    assert_eq!(from_tables, from_edges);
    println!("from tables and edges alike: {} pairs", from_tables.len());
    Ok(())
}

/// Asks the index and prints the pairs by name.
fn ask(index: &mut Index, what: &str, query: &Query) -> Result<(), Refusal> {
    println!("{what}:");
    for position in index.ask(query)? {
        let (from, to) = pair(ITEMS.len() as u32, *position);
        println!("  {} - {}", ITEMS[from as usize], ITEMS[to as usize]);
    }
    Ok(())
}
