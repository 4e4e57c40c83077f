//! Safe wrappers over Kavizhuran, a proved relation index for a lift register.
//!
//! The library behind this package has seven entries over lent lists, each proved to do what
//! document 01 of the project says. Here each entry is a function from slices to a [`Result`]:
//! what it answers, or the [`Refusal`] with its values.
//!
//! | to do | call |
//! |---|---|
//! | write the tables of the index for an edge table | [`build`] |
//! | test tables that were made elsewhere | [`check`] |
//! | answer a query from the edge table | [`direct`] |
//! | answer a query from the tables | [`stored`], [`class`] |
//! | read the tables | [`class_pairs`], [`lookup`] |
//!
//! [`Register`] and [`Index`] own all lists, for users who have no buffers of their own to lend:
//!
//! ```
//! use kavizhuran::{Query, Register};
//!
//! // Lifts 0 and 1 have part 2; part 2 is certified by certificate 3.
//! let mut register = Register::new(4, 2);
//! register.add(0, 2, 0);
//! register.add(1, 2, 0);
//! register.add(2, 3, 1);
//! let mut index = register.index(2)?;
//! let covered = Query::step(0).then(Query::step(1));
//! assert_eq!(index.ask(&covered)?, [3, 7]); // the pairs (0,3) and (1,3)
//! # Ok::<(), kavizhuran::Refusal>(())
//! ```
//!
//! No call faults or runs without end, whatever the numbers in its lists are. The wrappers panic
//! only where this page says so: [`lookup`] on a list of 2³² numbers or more, and any entry if
//! what comes back is no answer of the library (see [`Refusal`]).

#![deny(missing_docs)]
#![deny(unsafe_code)]

mod calls;
mod entries;
mod owned;
mod query;
mod refusal;
mod sizes;
mod tables;

pub use entries::{build, check, class, class_pairs, direct, lookup, stored};
pub use owned::{Index, Register};
pub use query::{backward, forward, Query};
pub use refusal::{List, Refusal};
pub use sizes::{
    area_len, levels_len, order_len, pair, position, starts_len, MAX_EDGES, MAX_ITEMS, MAX_LABELS,
    MAX_LEVELS, MAX_SYMBOLS, MAX_TOKENS, MAX_WAITING,
};
pub use tables::{Built, Stored, Tables, TablesMut};

/// The worked calls of README.md, as tests.
#[cfg(doctest)]
#[doc = include_str!("../README.md")]
struct Readme;
