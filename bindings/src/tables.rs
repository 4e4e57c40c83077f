//! The tables of an index as lent lists. They are named fields, so that lists of one type cannot
//! be exchanged by accident.

use crate::sizes::order_len;

/// What [`build`](crate::build) has written: the counts to which the lists are then cut.
#[derive(Clone, Copy, Debug, PartialEq, Eq, Hash)]
pub struct Built {
    /// Classes at level k; starts has one number more.
    pub classes: u32,
    /// Connected pairs: the numbers of order.
    pub pairs: u32,
    /// Entries, two numbers each.
    pub entries: u32,
}

/// The four tables, to be written by [`build`](crate::build).
#[derive(Debug)]
pub struct TablesMut<'a> {
    /// [`levels_len`](crate::levels_len) numbers or more: items² for each level, level 1 first.
    pub levels: &'a mut [u32],
    /// [`starts_len`](crate::starts_len) numbers or more.
    pub starts: &'a mut [u32],
    /// [`order_len`](crate::order_len) numbers or more.
    pub order: &'a mut [u32],
    /// Two numbers for each entry there is room for.
    pub entries: &'a mut [u32],
}

/// The four tables, to be read.
#[derive(Clone, Copy, Debug, PartialEq, Eq)]
pub struct Tables<'a> {
    /// Class numbers: items² for each level, level 1 first; 0 where a pair is not connected.
    pub levels: &'a [u32],
    /// Where the pairs of each class start in order, and last where they end.
    pub starts: &'a [u32],
    /// Positions of the connected pairs, class by class.
    pub order: &'a [u32],
    /// Code and class of each entry, ascending.
    pub entries: &'a [u32],
}

/// What stored and class answers read: the table of level k alone, and the entries.
#[derive(Clone, Copy, Debug, PartialEq, Eq)]
pub struct Stored<'a> {
    /// The table of level k: items² numbers or more.
    pub table: &'a [u32],
    /// Code and class of each entry.
    pub entries: &'a [u32],
}

impl<'a> Tables<'a> {
    /// The builder's lists cut to the counts that it returned, as [`check`](crate::check) asks
    /// for them: it compares starts, order and entries whole.
    ///
    /// # Panics
    /// If a list is shorter than its count, which cannot be after a build into these lists.
    pub fn cut(self, built: Built) -> Tables<'a> {
        Tables {
            levels: self.levels,
            starts: &self.starts[..built.classes as usize + 1],
            order: &self.order[..built.pairs as usize],
            entries: &self.entries[..2 * built.entries as usize],
        }
    }

    /// What stored and class answers read of an index with `k` levels. Where `levels` lacks level
    /// `k` the table is empty, which those entries refuse as too short.
    pub fn stored(self, items: u32, k: u32) -> Stored<'a> {
        let pairs = order_len(items);
        let from = (k as usize).saturating_sub(1).saturating_mul(pairs);
        let to = (k as usize).saturating_mul(pairs);
        Stored {
            table: self.levels.get(from..to).unwrap_or(&[]),
            entries: self.entries,
        }
    }
}
