//! The one place that reaches the library: seven functions, the same in both implementations.
//! `linked` calls the static library; `driven` writes each call as a case of docs/TRIAL.md to a
//! driver process and reads the answer back. build.rs decides which of the two is compiled.

#[cfg(any(driven, test))]
mod case;
#[cfg(driven)]
mod driven;
#[cfg(not(driven))]
mod linked;

#[cfg(driven)]
pub(crate) use driven::{build, check, class, direct, lookup, pairs, stored};
#[cfg(not(driven))]
pub(crate) use linked::{build, check, class, direct, lookup, pairs, stored};

/// What an entry returns: 0 or a refusal's number, and its values, 0 where none is named.
#[repr(C)]
#[derive(Clone, Copy, Debug, PartialEq, Eq)]
pub(crate) struct Outcome {
    pub number: u32,
    pub a: u32,
    pub b: u32,
    pub c: u32,
}
