//! Calls through a driver process, one process for each call: the case on its standard input, the
//! answer on its standard output. It is slow, and takes lists no longer than docs/TRIAL.md says;
//! it is there for processors that the static library is not for.

use super::case::{Answer, Case};
use super::Outcome;
use crate::tables::{Stored, Tables, TablesMut};
use std::io::Write;
use std::process::{Command, Stdio};
use std::thread;

pub(crate) fn build(
    items: u32,
    labels: u32,
    k: u32,
    edges: &[u32],
    tables: TablesMut<'_>,
    area: &mut [u8],
) -> Outcome {
    let case = Case::new('B', &[items, labels, k]).list(edges);
    let case = case
        .list(tables.levels)
        .list(tables.starts)
        .list(tables.order);
    let line = answer(case.list(tables.entries).list(area));
    let (outcome, answer) = Answer::new(&line);
    let answer = answer.unchanged(edges).written(tables.levels);
    let answer = answer.written(tables.starts).written(tables.order);
    answer.written(tables.entries).written(area).end();
    outcome
}

pub(crate) fn check(
    items: u32,
    labels: u32,
    k: u32,
    edges: &[u32],
    tables: Tables<'_>,
    area: &mut [u8],
) -> Outcome {
    let case = Case::new('C', &[items, labels, k]).list(edges);
    let case = case
        .list(tables.levels)
        .list(tables.starts)
        .list(tables.order);
    let line = answer(case.list(tables.entries).list(area));
    let (outcome, answer) = Answer::new(&line);
    let answer = answer.unchanged(edges).unchanged(tables.levels);
    let answer = answer.unchanged(tables.starts).unchanged(tables.order);
    answer.unchanged(tables.entries).written(area).end();
    outcome
}

pub(crate) fn direct(
    items: u32,
    labels: u32,
    edges: &[u32],
    tokens: &[u8],
    answers: &mut [u32],
    area: &mut [u8],
) -> Outcome {
    let case = Case::new('D', &[items, labels]).list(edges).list(tokens);
    let line = answer(case.list(answers).list(area));
    let (outcome, answer) = Answer::new(&line);
    let answer = answer.unchanged(edges).unchanged(tokens);
    answer.written(answers).written(area).end();
    outcome
}

pub(crate) fn stored(
    items: u32,
    labels: u32,
    stored: Stored<'_>,
    tokens: &[u8],
    answers: &mut [u32],
    area: &mut [u8],
) -> Outcome {
    over_tables(
        Case::new('S', &[items, labels]),
        stored,
        tokens,
        answers,
        area,
    )
}

pub(crate) fn class(
    items: u32,
    labels: u32,
    k: u32,
    stored: Stored<'_>,
    tokens: &[u8],
    answers: &mut [u32],
    area: &mut [u8],
) -> Outcome {
    over_tables(
        Case::new('K', &[items, labels, k]),
        stored,
        tokens,
        answers,
        area,
    )
}

pub(crate) fn pairs(c: u32, starts: &[u32], order: &[u32]) -> Outcome {
    let line = answer(Case::new('P', &[c]).list(starts).list(order));
    let (outcome, answer) = Answer::new(&line);
    answer.unchanged(starts).unchanged(order).end();
    outcome
}

pub(crate) fn lookup(symbols: &[u8], entries: &[u32]) -> Outcome {
    let line = answer(Case::new('L', &[]).list(symbols).list(entries));
    let (outcome, answer) = Answer::new(&line);
    answer.unchanged(symbols).unchanged(entries).end();
    outcome
}

/// Stored and class answers have the same lists.
fn over_tables(
    case: Case,
    stored: Stored<'_>,
    tokens: &[u8],
    answers: &mut [u32],
    area: &mut [u8],
) -> Outcome {
    let case = case.list(stored.table).list(stored.entries).list(tokens);
    let line = answer(case.list(answers).list(area));
    let (outcome, answer) = Answer::new(&line);
    let answer = answer.unchanged(stored.table).unchanged(stored.entries);
    let answer = answer.unchanged(tokens);
    answer.written(answers).written(area).end();
    outcome
}

/// What the driver writes for a case.
fn answer(case: Case) -> String {
    let line = case.line();
    let mut driver = driver();
    let started = driver.stdin(Stdio::piped()).stdout(Stdio::piped()).spawn();
    let mut running =
        started.unwrap_or_else(|fault| panic!("kavizhuran: {driver:?} does not start: {fault}"));
    let mut input = running.stdin.take().expect("standard input is a pipe");
    let output = thread::scope(|scope| {
        // A driver that ends before it has read all shows in what it wrote.
        scope.spawn(move || input.write_all(line.as_bytes()));
        running.wait_with_output()
    });
    let output = output.expect("kavizhuran: the driver's answer cannot be read");
    let status = output.status;
    assert!(
        status.success(),
        "kavizhuran: {driver:?} ended with {status}"
    );
    String::from_utf8(output.stdout).expect("kavizhuran: the driver's answer is no text")
}

/// The command in KAVIZHURAN_DRIVER, split at spaces; else the program trial of the repository
/// that this package was compiled in.
fn driver() -> Command {
    let named = std::env::var("KAVIZHURAN_DRIVER").unwrap_or_default();
    let mut words = named.split_ascii_whitespace();
    let Some(program) = words.next() else {
        let mut trial = Command::new(concat!(env!("CARGO_MANIFEST_DIR"), "/../tools/run"));
        trial.arg("trial");
        return trial;
    };
    let mut command = Command::new(program);
    command.args(words);
    command
}
