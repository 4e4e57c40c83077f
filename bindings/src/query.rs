//! Queries as tokens.

/// The symbol of a step along a label: 2·label + 1. Labels that no register has (8 and more) get
/// 255, which is the symbol of no step, so that whoever asks for them is refused
/// ([`Refusal::Unknown`](crate::Refusal::Unknown)).
pub const fn forward(label: u32) -> u8 {
    if label < 8 {
        2 * label as u8 + 1
    } else {
        255
    }
}

/// The symbol of a step against a label: 2·label + 2. Labels of 8 and more get 255, as in
/// [`forward`].
pub const fn backward(label: u32) -> u8 {
    if label < 8 {
        2 * label as u8 + 2
    } else {
        255
    }
}

const IDENTITY: u8 = 0;
const JOIN: u8 = 32;
const CONJUNCTION: u8 = 33;

/// A query in the making, kept as its tokens.
///
/// Nothing is refused here: a query with a label that the register lacks, with over 64 tokens or
/// with nine operands waiting is refused when it is asked.
///
/// ```
/// use kavizhuran::Query;
///
/// // Who is joined by a step along label 0 and one back, and is the same item?
/// let query = Query::step(0).then(Query::back(0)).and(Query::identity());
/// assert_eq!(query.tokens(), [1, 2, 32, 0, 33]);
/// assert_eq!(query.diameter(), 2);
/// ```
#[derive(Clone, Debug, PartialEq, Eq, Hash)]
pub struct Query {
    tokens: Vec<u8>,
    diameter: u32,
}

impl Query {
    /// All pairs of an item with itself.
    pub fn identity() -> Query {
        Query {
            tokens: vec![IDENTITY],
            diameter: 0,
        }
    }

    /// A step along a label: source and target of its edges.
    pub fn step(label: u32) -> Query {
        Query {
            tokens: vec![forward(label)],
            diameter: 1,
        }
    }

    /// A step against a label: target and source of its edges.
    pub fn back(label: u32) -> Query {
        Query {
            tokens: vec![backward(label)],
            diameter: 1,
        }
    }

    /// The join: the pairs with an item between them, such that this query leads to it and
    /// `next` leads on from it.
    pub fn then(self, next: Query) -> Query {
        let diameter = self.diameter.saturating_add(next.diameter);
        self.combine(next, JOIN, diameter)
    }

    /// The conjunction: the pairs that meet both.
    pub fn and(self, other: Query) -> Query {
        let diameter = self.diameter.max(other.diameter);
        self.combine(other, CONJUNCTION, diameter)
    }

    /// The tokens, operands first, as the entries take them.
    pub fn tokens(&self) -> &[u8] {
        &self.tokens
    }

    /// 0 for identity, 1 for a step, the sum for a join, the larger one for a conjunction. An
    /// index with k levels gives class answers to queries of diameter at most k.
    pub fn diameter(&self) -> u32 {
        self.diameter
    }

    fn combine(mut self, other: Query, operator: u8, diameter: u32) -> Query {
        self.tokens.extend(other.tokens);
        self.tokens.push(operator);
        Query {
            tokens: self.tokens,
            diameter,
        }
    }
}
