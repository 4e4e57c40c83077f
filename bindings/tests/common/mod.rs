//! Document 01's table, and lent lists that are filled so that a stray write shows.
#![allow(dead_code)]

use kavizhuran::*;

pub const EDGES: [u32; 9] = [0, 2, 0, 1, 2, 0, 3, 2, 1];
pub const LEVELS: [u32; 32] = [
    1, 0, 2, 0, 0, 1, 2, 0, 3, 3, 1, 4, 0, 0, 5, 1, // level 1
    1, 2, 3, 4, 2, 1, 3, 4, 5, 5, 6, 7, 8, 8, 9, 10, // level 2
];
pub const STARTS: [u32; 11] = [0, 2, 4, 6, 8, 10, 11, 12, 14, 15, 16];
pub const ORDER: [u32; 16] = [0, 5, 1, 4, 2, 6, 3, 7, 8, 9, 10, 11, 12, 13, 14, 15];
pub const ENTRIES: [u32; 28] = [
    0, 1, 0, 6, 0, 10, 1, 3, 2, 5, 3, 9, 4, 7, 19, 1, 19, 2, 21, 4, 35, 6, 53, 8, 55, 10, 71, 6,
];
pub const TABLES: Tables = Tables {
    levels: &LEVELS,
    starts: &STARTS,
    order: &ORDER,
    entries: &ENTRIES,
};

/// What every lent number and byte is before a call; no table or answer here has it.
pub const FILL: u32 = 9_000_000;
pub const FILL_BYTE: u8 = 77;

/// The lists that build writes, three numbers longer than it asks for.
#[derive(Clone, Debug, PartialEq, Eq)]
pub struct Lent {
    pub levels: Vec<u32>,
    pub starts: Vec<u32>,
    pub order: Vec<u32>,
    pub entries: Vec<u32>,
    pub area: Vec<u8>,
}

impl Lent {
    pub fn new(items: u32, k: u32, entry_room: usize) -> Lent {
        Lent {
            levels: vec![FILL; levels_len(items, k) + 3],
            starts: vec![FILL; starts_len(items) + 3],
            order: vec![FILL; order_len(items) + 3],
            entries: vec![FILL; 2 * entry_room],
            area: vec![FILL_BYTE; area_len(items) + 3],
        }
    }

    pub fn build(
        &mut self,
        items: u32,
        labels: u32,
        k: u32,
        edges: &[u32],
    ) -> Result<Built, Refusal> {
        let tables = TablesMut {
            levels: &mut self.levels,
            starts: &mut self.starts,
            order: &mut self.order,
            entries: &mut self.entries,
        };
        build(items, labels, k, edges, tables, &mut self.area)
    }

    pub fn tables(&self) -> Tables<'_> {
        Tables {
            levels: &self.levels,
            starts: &self.starts,
            order: &self.order,
            entries: &self.entries,
        }
    }
}

/// A call of direct, stored or class with answers and area filled: what it returned, and both
/// lists afterwards.
#[derive(Clone, Debug, PartialEq, Eq)]
pub struct Asked {
    pub result: Result<Vec<u32>, Refusal>,
    pub answers: Vec<u32>,
    pub area: Vec<u8>,
}

impl Asked {
    pub fn new(
        room: usize,
        bytes: usize,
        call: impl FnOnce(&mut [u32], &mut [u8]) -> Result<Vec<u32>, Refusal>,
    ) -> Asked {
        let mut answers = vec![FILL; room];
        let mut area = vec![FILL_BYTE; bytes];
        let result = call(&mut answers, &mut area);
        Asked {
            result,
            answers,
            area,
        }
    }

    /// Nothing is written.
    pub fn untouched(&self) -> bool {
        let answers = self.answers.iter().all(|number| *number == FILL);
        answers && self.area.iter().all(|byte| *byte == FILL_BYTE)
    }

    /// The answers stand in front, all behind them is as before, and of the area just the bytes
    /// that are asked for are zero. At a refusal that follows work there are no answers.
    pub fn holds(&self, answers: &[u32], zeros: usize) -> bool {
        let (front, behind) = self.answers.split_at(answers.len());
        let kept = behind.iter().all(|number| *number == FILL);
        front == answers && kept && zeroed(&self.area, zeros)
    }
}

/// The first bytes are zero and those behind as before.
pub fn zeroed(area: &[u8], zeros: usize) -> bool {
    let (front, behind) = area.split_at(zeros);
    front.iter().all(|byte| *byte == 0) && behind.iter().all(|byte| *byte == FILL_BYTE)
}

/// Direct on document 01's table, with room and area as given.
pub fn ask_direct(tokens: &[u8], room: usize, bytes: usize) -> Asked {
    Asked::new(room, bytes, |answers, area| {
        direct(4, 2, &EDGES, tokens, answers, area).map(|part| part.to_vec())
    })
}

/// Stored on the tables of document 01's table.
pub fn ask_stored(tokens: &[u8], room: usize, bytes: usize) -> Asked {
    Asked::new(room, bytes, |answers, area| {
        stored(4, 2, TABLES.stored(4, 2), tokens, answers, area).map(|part| part.to_vec())
    })
}

/// Class answer on the tables of document 01's table.
pub fn ask_class(tokens: &[u8], room: usize, bytes: usize) -> Asked {
    Asked::new(room, bytes, |answers, area| {
        class(4, 2, 2, TABLES.stored(4, 2), tokens, answers, area).map(|part| part.to_vec())
    })
}
