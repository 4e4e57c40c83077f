//! What an entry returns.

/// The number of the table of refusals (0: done) and the values named beside it.
/// "Result numbers that the table doesn't name are 0."
#[derive(Clone, Copy, Debug, PartialEq, Eq)]
pub struct Outcome {
    pub number: u32,
    pub a: u32,
    pub b: u32,
    pub c: u32,
}

impl Outcome {
    /// 0, with up to three values.
    pub fn done(a: u32, b: u32, c: u32) -> Outcome {
        Outcome { number: 0, a, b, c }
    }

    /// A refusal that returns nothing but its number.
    pub fn refused(number: u32) -> Outcome {
        Outcome::refused_at(number, 0)
    }

    /// A refusal with one value: an edge, a place, a need or an index.
    pub fn refused_at(number: u32, a: u32) -> Outcome {
        Outcome {
            number,
            a,
            b: 0,
            c: 0,
        }
    }

    /// A refusal with two values: level and position, or list and index.
    pub fn refused_with(number: u32, a: u32, b: u32) -> Outcome {
        Outcome { number, a, b, c: 0 }
    }
}
