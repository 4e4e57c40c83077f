//! Why an entry did not do what it was asked.

use crate::calls::Outcome;
use std::fmt;

/// A refusal of the library, with the values that document 01's table names beside its number.
///
/// Each entry tests in a fixed order and gives the first refusal that it meets; its own page
/// has the order. The library is proved to return 0 or one of these numbers. A wrapper that gets
/// any other panics: then the library linked is not the one that this package is for.
#[derive(Clone, Copy, Debug, PartialEq, Eq, Hash)]
pub enum Refusal {
    /// 1: more than 128 items, or labels not 1 to 8.
    Sizes,
    /// 2: k, the number of levels, is not 1 to 4.
    LevelCount,
    /// 3: the edge table is no whole number of edges, or has over 4,096.
    EdgeCount,
    /// 4: an edge's item or label is too large.
    Edge {
        /// The first such edge, from 0.
        edge: u32,
    },
    /// 5: the working area or the level tables are too short, or, for build, order or starts.
    Room,
    /// 6: build has more entries than there is room for, two numbers each.
    EntryRoom {
        /// How many entries (not numbers) are needed.
        needed: u32,
    },
    /// 7: the query is empty or has over 64 tokens.
    QueryLength,
    /// 8: an unknown token, or, for lookup, a symbol that is not 1 to 16.
    Unknown {
        /// Its place, from 0.
        place: u32,
    },
    /// 9: a join or conjunction with under two operands waiting.
    FewOperands {
        /// Its place, from 0.
        place: u32,
    },
    /// 10: a ninth operand would have to wait.
    NinthOperand {
        /// Its place, from 0.
        place: u32,
    },
    /// 11: more than one operand is left at the end of the query.
    OperandsLeft,
    /// 12: the query's diameter is over k (class answer), or over 4 symbols (lookup).
    TooLong,
    /// 13: more answers than there is room for.
    AnswerRoom {
        /// How many answers there are.
        needed: u32,
    },
    /// 14: no such class: its number is 0, starts has no place for it, or its two bounds are out
    /// of order or pass the order list.
    NoClass,
    /// 15: check found a fault in a level table.
    LevelFault {
        /// The level, from 1.
        level: u32,
        /// The first faulty position in it.
        position: u32,
    },
    /// 16: check found starts, or else order, to be another list than the level tables give.
    ListFault {
        /// Which of the two.
        list: List,
        /// The first number that differs, or the shorter length where one list begins the other.
        index: u32,
    },
    /// 17: check found entries to be another list than the level tables give.
    EntryFault {
        /// The first number that differs, or the shorter length where one list begins the other.
        index: u32,
    },
}

/// The two lists that [`Refusal::ListFault`] can name.
#[derive(Clone, Copy, Debug, PartialEq, Eq, Hash)]
pub enum List {
    /// 1: the starts list.
    Starts,
    /// 2: the order list.
    Order,
}

impl Refusal {
    /// The refusal's number in document 01's table, 1 to 17.
    pub fn number(self) -> u32 {
        match self {
            Refusal::Sizes => 1,
            Refusal::LevelCount => 2,
            Refusal::EdgeCount => 3,
            Refusal::Edge { .. } => 4,
            Refusal::Room => 5,
            Refusal::EntryRoom { .. } => 6,
            Refusal::QueryLength => 7,
            Refusal::Unknown { .. } => 8,
            Refusal::FewOperands { .. } => 9,
            Refusal::NinthOperand { .. } => 10,
            Refusal::OperandsLeft => 11,
            Refusal::TooLong => 12,
            Refusal::AnswerRoom { .. } => 13,
            Refusal::NoClass => 14,
            Refusal::LevelFault { .. } => 15,
            Refusal::ListFault { .. } => 16,
            Refusal::EntryFault { .. } => 17,
        }
    }
}

impl Outcome {
    /// The outcome itself at 0, else the refusal that its numbers stand for.
    pub(crate) fn accept(self) -> Result<Outcome, Refusal> {
        let Outcome { number, a, b, .. } = self;
        Err(match number {
            0 => return Ok(self),
            1 => Refusal::Sizes,
            2 => Refusal::LevelCount,
            3 => Refusal::EdgeCount,
            4 => Refusal::Edge { edge: a },
            5 => Refusal::Room,
            6 => Refusal::EntryRoom { needed: a },
            7 => Refusal::QueryLength,
            8 => Refusal::Unknown { place: a },
            9 => Refusal::FewOperands { place: a },
            10 => Refusal::NinthOperand { place: a },
            11 => Refusal::OperandsLeft,
            12 => Refusal::TooLong,
            13 => Refusal::AnswerRoom { needed: a },
            14 => Refusal::NoClass,
            15 => Refusal::LevelFault {
                level: a,
                position: b,
            },
            16 => Refusal::ListFault {
                list: List::of(a),
                index: b,
            },
            17 => Refusal::EntryFault { index: a },
            _ => {
                panic!("kavizhuran: the library returned {number}, which is no number of its table")
            }
        })
    }
}

impl List {
    fn of(number: u32) -> List {
        match number {
            1 => List::Starts,
            2 => List::Order,
            _ => panic!("kavizhuran: the library named list {number}, and there are 1 and 2"),
        }
    }
}

impl fmt::Display for Refusal {
    fn fmt(&self, out: &mut fmt::Formatter<'_>) -> fmt::Result {
        write!(out, "refusal {}: ", self.number())?;
        match self {
            Refusal::Sizes => write!(out, "over 128 items, or labels not 1 to 8"),
            Refusal::LevelCount => write!(out, "k is not 1 to 4"),
            Refusal::EdgeCount => write!(out, "no whole number of edges, or over 4,096"),
            Refusal::Edge { edge } => write!(out, "edge {edge} has too large an item or label"),
            Refusal::Room => write!(out, "a lent list is too short"),
            Refusal::EntryRoom { needed } => write!(out, "room for {needed} entries is needed"),
            Refusal::QueryLength => write!(out, "the query is empty or has over 64 tokens"),
            Refusal::Unknown { place } => write!(out, "unknown token or symbol at {place}"),
            Refusal::FewOperands { place } => write!(out, "too few operands wait at {place}"),
            Refusal::NinthOperand { place } => write!(out, "a ninth operand at {place}"),
            Refusal::OperandsLeft => write!(out, "more than one operand is left at the end"),
            Refusal::TooLong => write!(out, "diameter over k, or over 4 symbols"),
            Refusal::AnswerRoom { needed } => write!(out, "room for {needed} answers is needed"),
            Refusal::NoClass => write!(out, "no such class"),
            Refusal::LevelFault { level, position } => {
                write!(out, "level {level} is wrong at position {position}")
            }
            Refusal::ListFault {
                list: List::Starts,
                index,
            } => {
                write!(out, "starts is wrong at {index}")
            }
            Refusal::ListFault {
                list: List::Order,
                index,
            } => {
                write!(out, "order is wrong at {index}")
            }
            Refusal::EntryFault { index } => write!(out, "entries is wrong at {index}"),
        }
    }
}

impl std::error::Error for Refusal {}

#[cfg(test)]
mod tests {
    use super::*;

    fn outcome(number: u32) -> Outcome {
        Outcome {
            number,
            a: 1,
            b: 2,
            c: 0,
        }
    }

    #[test]
    fn every_number_comes_back() {
        assert_eq!(outcome(0).accept(), Ok(outcome(0)));
        for number in 1..=17 {
            let refusal = outcome(number).accept().unwrap_err();
            assert_eq!(refusal.number(), number);
            assert!(refusal
                .to_string()
                .starts_with(&format!("refusal {number}: ")));
        }
    }

    #[test]
    fn values_stand_where_the_table_has_them() {
        let level = Refusal::LevelFault {
            level: 1,
            position: 2,
        };
        assert_eq!(outcome(15).accept(), Err(level));
        let list = Refusal::ListFault {
            list: List::Starts,
            index: 2,
        };
        assert_eq!(outcome(16).accept(), Err(list));
        assert_eq!(outcome(17).accept(), Err(Refusal::EntryFault { index: 1 }));
    }

    #[test]
    #[should_panic(expected = "the library returned 18")]
    fn no_other_number() {
        let _ = outcome(18).accept();
    }
}
