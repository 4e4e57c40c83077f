//! An independent second implementation of document 01, naive on purpose: each sentence of the
//! document has its place here, and the proved library is compared with what this one returns.
//!
//! Every entry takes its inputs and lent buffers by value or by reference and hands back the
//! [`Outcome`] together with every buffer as it stands afterwards.

pub mod answers;
pub mod build;
pub mod case;
pub mod check;
pub mod compare;
pub mod generate;
pub mod graph;
pub mod kinds;
pub mod levels;
pub mod lists;
pub mod outcome;
pub mod parts;
pub mod program;
pub mod query;
pub mod refusals;
pub mod relation;

pub use answers::{class_answer, direct_answer, stored_answer, Answered};
pub use build::{build, Tables};
pub use check::check;
pub use outcome::Outcome;
pub use parts::{pairs_of_class, sequence_lookup};
