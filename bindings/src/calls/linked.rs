//! Calls of the static library.
//!
//! A slice goes over as its pointer and its number of elements, so each call lends exactly the
//! memory that the slice has: aligned, initialised, and, for a lent list that is written, reached
//! through nothing else while the call runs. The entries ask nothing more of their callers; they
//! keep no pointer, and write u32 and u8, of which every value is good.
#![allow(unsafe_code)]

use super::Outcome;
use crate::tables::{Stored, Tables, TablesMut};

extern "C" {
    fn kv_build(
        items: u32,
        labels: u32,
        k: u32,
        edges: *const u32,
        n_edges: usize,
        levels: *mut u32,
        n_levels: usize,
        starts: *mut u32,
        n_starts: usize,
        order: *mut u32,
        n_order: usize,
        entries: *mut u32,
        n_entries: usize,
        area: *mut u8,
        n_area: usize,
    ) -> Outcome;
    fn kv_check(
        items: u32,
        labels: u32,
        k: u32,
        edges: *const u32,
        n_edges: usize,
        levels: *const u32,
        n_levels: usize,
        starts: *const u32,
        n_starts: usize,
        order: *const u32,
        n_order: usize,
        entries: *const u32,
        n_entries: usize,
        area: *mut u8,
        n_area: usize,
    ) -> Outcome;
    fn kv_direct(
        items: u32,
        labels: u32,
        edges: *const u32,
        n_edges: usize,
        tokens: *const u8,
        n_tokens: usize,
        answers: *mut u32,
        n_answers: usize,
        area: *mut u8,
        n_area: usize,
    ) -> Outcome;
    fn kv_stored(
        items: u32,
        labels: u32,
        table: *const u32,
        n_table: usize,
        entries: *const u32,
        n_entries: usize,
        tokens: *const u8,
        n_tokens: usize,
        answers: *mut u32,
        n_answers: usize,
        area: *mut u8,
        n_area: usize,
    ) -> Outcome;
    fn kv_class(
        items: u32,
        labels: u32,
        k: u32,
        table: *const u32,
        n_table: usize,
        entries: *const u32,
        n_entries: usize,
        tokens: *const u8,
        n_tokens: usize,
        answers: *mut u32,
        n_answers: usize,
        area: *mut u8,
        n_area: usize,
    ) -> Outcome;
    fn kv_pairs(
        c: u32,
        starts: *const u32,
        n_starts: usize,
        order: *const u32,
        n_order: usize,
    ) -> Outcome;
    fn kv_lookup(
        symbols: *const u8,
        n_symbols: usize,
        entries: *const u32,
        n_entries: usize,
    ) -> Outcome;
}

pub(crate) fn build(
    items: u32,
    labels: u32,
    k: u32,
    edges: &[u32],
    tables: TablesMut<'_>,
    area: &mut [u8],
) -> Outcome {
    // SAFETY: each pointer and count come from one slice, and the written ones are exclusive.
    unsafe {
        kv_build(
            items,
            labels,
            k,
            edges.as_ptr(),
            edges.len(),
            tables.levels.as_mut_ptr(),
            tables.levels.len(),
            tables.starts.as_mut_ptr(),
            tables.starts.len(),
            tables.order.as_mut_ptr(),
            tables.order.len(),
            tables.entries.as_mut_ptr(),
            tables.entries.len(),
            area.as_mut_ptr(),
            area.len(),
        )
    }
}

pub(crate) fn check(
    items: u32,
    labels: u32,
    k: u32,
    edges: &[u32],
    tables: Tables<'_>,
    area: &mut [u8],
) -> Outcome {
    // SAFETY: each pointer and count come from one slice, and the written one is exclusive.
    unsafe {
        kv_check(
            items,
            labels,
            k,
            edges.as_ptr(),
            edges.len(),
            tables.levels.as_ptr(),
            tables.levels.len(),
            tables.starts.as_ptr(),
            tables.starts.len(),
            tables.order.as_ptr(),
            tables.order.len(),
            tables.entries.as_ptr(),
            tables.entries.len(),
            area.as_mut_ptr(),
            area.len(),
        )
    }
}

pub(crate) fn direct(
    items: u32,
    labels: u32,
    edges: &[u32],
    tokens: &[u8],
    answers: &mut [u32],
    area: &mut [u8],
) -> Outcome {
    // SAFETY: each pointer and count come from one slice, and the written ones are exclusive.
    unsafe {
        kv_direct(
            items,
            labels,
            edges.as_ptr(),
            edges.len(),
            tokens.as_ptr(),
            tokens.len(),
            answers.as_mut_ptr(),
            answers.len(),
            area.as_mut_ptr(),
            area.len(),
        )
    }
}

pub(crate) fn stored(
    items: u32,
    labels: u32,
    stored: Stored<'_>,
    tokens: &[u8],
    answers: &mut [u32],
    area: &mut [u8],
) -> Outcome {
    // SAFETY: each pointer and count come from one slice, and the written ones are exclusive.
    unsafe {
        kv_stored(
            items,
            labels,
            stored.table.as_ptr(),
            stored.table.len(),
            stored.entries.as_ptr(),
            stored.entries.len(),
            tokens.as_ptr(),
            tokens.len(),
            answers.as_mut_ptr(),
            answers.len(),
            area.as_mut_ptr(),
            area.len(),
        )
    }
}

pub(crate) fn class(
    items: u32,
    labels: u32,
    k: u32,
    stored: Stored<'_>,
    tokens: &[u8],
    answers: &mut [u32],
    area: &mut [u8],
) -> Outcome {
    // SAFETY: each pointer and count come from one slice, and the written ones are exclusive.
    unsafe {
        kv_class(
            items,
            labels,
            k,
            stored.table.as_ptr(),
            stored.table.len(),
            stored.entries.as_ptr(),
            stored.entries.len(),
            tokens.as_ptr(),
            tokens.len(),
            answers.as_mut_ptr(),
            answers.len(),
            area.as_mut_ptr(),
            area.len(),
        )
    }
}

pub(crate) fn pairs(c: u32, starts: &[u32], order: &[u32]) -> Outcome {
    // SAFETY: each pointer and count come from one slice.
    unsafe {
        kv_pairs(
            c,
            starts.as_ptr(),
            starts.len(),
            order.as_ptr(),
            order.len(),
        )
    }
}

pub(crate) fn lookup(symbols: &[u8], entries: &[u32]) -> Outcome {
    // SAFETY: each pointer and count come from one slice.
    unsafe {
        kv_lookup(
            symbols.as_ptr(),
            symbols.len(),
            entries.as_ptr(),
            entries.len(),
        )
    }
}
