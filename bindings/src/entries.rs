//! The seven entries. Document 01 has the exact rules; each page here says what the entry asks
//! for, what it returns and what it leaves in each lent list.

use crate::calls;
use crate::refusal::Refusal;
use crate::tables::{Built, Stored, Tables, TablesMut};

/// Writes the four tables of the index for an edge table.
///
/// # Asks
/// - `items` 0 to 128, `labels` 1 to 8, `k` (levels) 1 to 4;
/// - `edges`: source, target and label of each edge, at most 4,096 edges, in any order;
/// - `tables`: levels, starts and order with at least [`levels_len`](crate::levels_len),
///   [`starts_len`](crate::starts_len) and [`order_len`](crate::order_len) numbers; entries with
///   two numbers for each entry, a lone last number is unused;
/// - `area`: at least [`area_len`](crate::area_len) bytes, whatever stands in them.
///
/// # Returns
/// The counts of classes, connected pairs and entries. Refusals, in this order: `Sizes`,
/// `LevelCount`, `EdgeCount`, `Edge`, `Room`, `EntryRoom` with the number of entries needed.
///
/// # Leaves
/// - Done: k·items² numbers of levels, classes + 1 of starts, one a connected pair of order, two
///   an entry of entries; the first [`area_len`](crate::area_len) bytes of the area are zero.
/// - `EntryRoom`: levels, starts, order and area as when done, entries unchanged.
/// - Any other refusal: nothing is written.
///
/// All that stands behind these numbers is unchanged.
pub fn build(
    items: u32,
    labels: u32,
    k: u32,
    edges: &[u32],
    tables: TablesMut<'_>,
    area: &mut [u8],
) -> Result<Built, Refusal> {
    let done = calls::build(items, labels, k, edges, tables, area).accept()?;
    Ok(Built {
        classes: done.a,
        pairs: done.b,
        entries: done.c,
    })
}

/// Tests whether tables, made anywhere, are an index for an edge table.
///
/// Once accepted, [`stored`] answers every query as [`direct`] does. Classes may be finer than
/// those that [`build`] makes.
///
/// # Asks
/// Sizes, `edges` and `area` as [`build`] does; `tables` with levels of at least
/// [`levels_len`](crate::levels_len) numbers (more are not read), and starts, order and entries
/// with nothing behind their last number: [`Tables::cut`] cuts what [`build`] wrote.
///
/// # Returns
/// `Ok` if they are accepted. Refusals, in this order: `Sizes`, `LevelCount`, `EdgeCount`, `Edge`,
/// `Room`, `LevelFault` with level and first position, `ListFault` with list and index,
/// `EntryFault` with index.
///
/// # Leaves
/// - Accepted, or `LevelFault`, `ListFault` or `EntryFault`: the first
///   [`area_len`](crate::area_len) bytes of the area are zero, those behind unchanged.
/// - Any other refusal: nothing is written.
pub fn check(
    items: u32,
    labels: u32,
    k: u32,
    edges: &[u32],
    tables: Tables<'_>,
    area: &mut [u8],
) -> Result<(), Refusal> {
    calls::check(items, labels, k, edges, tables, area).accept()?;
    Ok(())
}

/// Answers a query from the edge table: the positions of the pairs that meet it.
///
/// # Asks
/// - `items`, `labels` and `edges` as [`build`] does;
/// - `tokens`: 1 to 64, operands first ([`Query`](crate::Query) writes them): 0 identity, 2l+1 a
///   step along label l, 2l+2 a step against it, 32 join, 33 conjunction; at most 8 operands wait
///   at once, and one is left at the end;
/// - `answers`: room for the positions; [`order_len`](crate::order_len) is always enough;
/// - `area`: at least [`area_len`](crate::area_len) bytes, whatever stands in them.
///
/// # Returns
/// The part of `answers` that holds the positions, ascending, each once. Refusals, in this order:
/// `Sizes`, `EdgeCount`, `Edge`, `QueryLength`, the first faulty token's (`Unknown`,
/// `FewOperands` or `NinthOperand`, with its place), `OperandsLeft`, `Room`, `AnswerRoom` with the
/// number of answers.
///
/// # Leaves
/// - Done: the positions in the front of `answers`; the first [`area_len`](crate::area_len) bytes
///   of the area are zero.
/// - `AnswerRoom`: `answers` unchanged, the area as when done.
/// - Any other refusal: nothing is written.
///
/// All that stands behind these numbers is unchanged.
pub fn direct<'a>(
    items: u32,
    labels: u32,
    edges: &[u32],
    tokens: &[u8],
    answers: &'a mut [u32],
    area: &mut [u8],
) -> Result<&'a [u32], Refusal> {
    let done = calls::direct(items, labels, edges, tokens, answers, area).accept()?;
    Ok(&answers[..done.a as usize])
}

/// Answers a query from the tables: the positions of the pairs that meet it.
///
/// A step holds the pairs whose class at level k is not 0 and stands in the part of the entries
/// that [`lookup`] gives for the step alone. On tables that [`check`] accepts this is what
/// [`direct`] answers; it is defined for any others too.
///
/// # Asks
/// `items`, `labels`, `tokens`, `answers` and `area` as [`direct`] does; `stored` with a table of at
/// least items² numbers ([`Tables::stored`] takes it from the tables).
///
/// # Returns
/// The part of `answers` that holds the positions, ascending, each once. Refusals, in this order:
/// `Sizes`, `QueryLength`, the first faulty token's, `OperandsLeft`, `Room`, `AnswerRoom`.
///
/// # Leaves
/// As [`direct`].
pub fn stored<'a>(
    items: u32,
    labels: u32,
    stored: Stored<'_>,
    tokens: &[u8],
    answers: &'a mut [u32],
    area: &mut [u8],
) -> Result<&'a [u32], Refusal> {
    let done = calls::stored(items, labels, stored, tokens, answers, area).accept()?;
    Ok(&answers[..done.a as usize])
}

/// Answers a query of diameter at most k from the tables, class by class.
///
/// These are the class numbers of level k whose first pair is in the answer of [`stored`]; on
/// tables that [`check`] accepts, all pairs of such a class meet the query, and no others do.
///
/// # Asks
/// As [`stored`], and `k` 1 to 4, which the query's diameter must not pass: 0 for identity, 1 for a
/// step, the sum for a join, the larger one for a conjunction.
///
/// # Returns
/// The part of `answers` that holds the class numbers, in order of first appearance. Refusals, in
/// this order: `Sizes`, `LevelCount`, `QueryLength`, the first faulty token's, `OperandsLeft`,
/// `TooLong`, `Room`, `AnswerRoom`.
///
/// # Leaves
/// As [`direct`], with class numbers for positions.
pub fn class<'a>(
    items: u32,
    labels: u32,
    k: u32,
    stored: Stored<'_>,
    tokens: &[u8],
    answers: &'a mut [u32],
    area: &mut [u8],
) -> Result<&'a [u32], Refusal> {
    let done = calls::class(items, labels, k, stored, tokens, answers, area).accept()?;
    Ok(&answers[..done.a as usize])
}

/// The pairs of a class: their positions, ascending, as a part of `order`.
///
/// # Asks
/// `class` from 1, and the two lists as [`build`] wrote them or [`check`] accepted them; any others
/// are safe too.
///
/// # Returns
/// The part from `starts[class - 1]` up to but without `starts[class]`. Refused with `NoClass`
/// where `class` is 0, `starts` has no place `class`, or the two bounds are out of order or pass
/// `order`.
///
/// # Leaves
/// Nothing is written.
pub fn class_pairs<'a>(class: u32, starts: &[u32], order: &'a [u32]) -> Result<&'a [u32], Refusal> {
    let done = calls::pairs(class, starts, order).accept()?;
    Ok(&order[done.b as usize..done.c as usize])
}

/// The entries of a sequence of step symbols, as a part of `entries`: code and class of each.
///
/// # Asks
/// 0 to 4 symbols, each 1 to 16 ([`forward`](crate::forward) and [`backward`](crate::backward)
/// give them), and the entries as [`build`] wrote them or [`check`] accepted them; any others are
/// safe too. A lone last number is not read.
///
/// # Returns
/// The part from the first entry with the sequence's code as far as the run of that code goes;
/// empty where there is none. Refusals, in this order: `TooLong` over 4 symbols, `Unknown` with
/// the place of the first wrong symbol.
///
/// # Leaves
/// Nothing is written.
///
/// # Panics
/// If `entries` has 2³² numbers or more: the library tells bounds in 32 bits.
pub fn lookup<'a>(symbols: &[u8], entries: &'a [u32]) -> Result<&'a [u32], Refusal> {
    let told = u32::try_from(entries.len()).is_ok();
    assert!(told, "kavizhuran: an entry list of 2³² numbers or more");
    let done = calls::lookup(symbols, entries).accept()?;
    Ok(&entries[done.b as usize..done.c as usize])
}
