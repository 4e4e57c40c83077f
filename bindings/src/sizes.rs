//! Limits, the lengths of lent lists, and positions.
//!
//! The lengths are what an entry asks for at least; shorter lists are refused with
//! [`Refusal::Room`](crate::Refusal::Room). They never overflow: sizes above the limits count as
//! the limits here, since the entries refuse them before they look at any list's length.

/// The most items a register has.
pub const MAX_ITEMS: u32 = 128;
/// The most labels a register has; the fewest are 1.
pub const MAX_LABELS: u32 = 8;
/// The most levels an index has; the fewest are 1.
pub const MAX_LEVELS: u32 = 4;
/// The most edges an edge table has, three numbers each.
pub const MAX_EDGES: usize = 4096;
/// The most tokens a query has; the fewest are 1.
pub const MAX_TOKENS: usize = 64;
/// The most operands that wait at once while a query is read.
pub const MAX_WAITING: usize = 8;
/// The most symbols that a sequence to look up has.
pub const MAX_SYMBOLS: usize = 4;

/// Bytes of working area: 9 for each pair of items.
pub fn area_len(items: u32) -> usize {
    9 * order_len(items)
}

/// Numbers of the level tables of an index with `k` levels: one for each pair and level.
pub fn levels_len(items: u32, k: u32) -> usize {
    k.min(MAX_LEVELS) as usize * order_len(items)
}

/// Numbers of the order list that [`build`](crate::build) asks for: one for each pair of items.
/// As many answers are enough for every query.
pub fn order_len(items: u32) -> usize {
    let items = items.min(MAX_ITEMS) as usize;
    items * items
}

/// Numbers of the starts list that [`build`](crate::build) asks for: one more than pairs.
pub fn starts_len(items: u32) -> usize {
    order_len(items) + 1
}

/// The position of the pair (`from`, `to`) in tables and answers: `from`·`items` + `to`.
///
/// Meant for items of the register, that is below `items`, and at most [`MAX_ITEMS`] of them.
pub fn position(items: u32, from: u32, to: u32) -> u32 {
    from * items + to
}

/// The pair at a position of tables and answers.
///
/// # Panics
/// If `items` is 0: then there is no pair, and no position.
pub fn pair(items: u32, position: u32) -> (u32, u32) {
    (position / items, position % items)
}
