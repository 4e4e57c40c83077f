//! A register and its index with all lists owned.

use crate::query::Query;
use crate::refusal::Refusal;
use crate::sizes::{area_len, levels_len, order_len, starts_len};
use crate::tables::{Built, Tables, TablesMut};
use crate::{build, check, class, class_pairs, direct, lookup, stored};

/// Entries there is room for in the first try of a build; a second one gets what is needed.
const FIRST_ROOM: usize = 4096;

/// An edge table with its sizes, and the lists that are lent for answers from it.
///
/// Sizes and edges are tested when something is asked, by the library: until then anything can
/// be added.
#[derive(Clone, Debug)]
pub struct Register {
    items: u32,
    labels: u32,
    edges: Vec<u32>,
    answers: Vec<u32>,
    area: Vec<u8>,
}

impl Register {
    /// A register without edges. At most 128 items and 1 to 8 labels can be asked about.
    pub fn new(items: u32, labels: u32) -> Register {
        Register {
            items,
            labels,
            edges: Vec::new(),
            answers: vec![0; order_len(items)],
            area: vec![0; area_len(items)],
        }
    }

    /// Adds an edge. Repeated edges and loops are allowed, and change no answer by their order.
    pub fn add(&mut self, source: u32, target: u32, label: u32) {
        self.edges.extend([source, target, label]);
    }

    /// The edge table: source, target and label of each edge, as they were added.
    pub fn edges(&self) -> &[u32] {
        &self.edges
    }

    /// The positions of the pairs that meet a query, ascending, from the edge table ([`direct`]).
    /// There is always room for them.
    pub fn ask(&mut self, query: &Query) -> Result<&[u32], Refusal> {
        let Register {
            items,
            labels,
            edges,
            answers,
            area,
        } = self;
        direct(*items, *labels, edges, query.tokens(), answers, area)
    }

    /// Builds an index with k levels ([`build`]). If the first room for entries is too small, it
    /// builds again with what is needed, so [`Refusal::EntryRoom`] never comes back.
    pub fn index(&mut self, k: u32) -> Result<Index, Refusal> {
        let mut lists = Lists {
            levels: vec![0; levels_len(self.items, k)],
            starts: vec![0; starts_len(self.items)],
            order: vec![0; order_len(self.items)],
            entries: vec![0; 2 * FIRST_ROOM],
        };
        let built = match self.build(k, &mut lists) {
            Err(Refusal::EntryRoom { needed }) => {
                lists.entries = vec![0; 2 * needed as usize];
                self.build(k, &mut lists)?
            }
            first => first?,
        };
        Ok(self.own(k, lists.tables().cut(built)))
    }

    /// Takes over an index that was made elsewhere, if [`check`] accepts it for this register.
    pub fn accept(&mut self, k: u32, tables: Tables<'_>) -> Result<Index, Refusal> {
        check(
            self.items,
            self.labels,
            k,
            &self.edges,
            tables,
            &mut self.area,
        )?;
        Ok(self.own(k, tables))
    }

    fn build(&mut self, k: u32, lists: &mut Lists) -> Result<Built, Refusal> {
        let tables = TablesMut {
            levels: &mut lists.levels,
            starts: &mut lists.starts,
            order: &mut lists.order,
            entries: &mut lists.entries,
        };
        build(
            self.items,
            self.labels,
            k,
            &self.edges,
            tables,
            &mut self.area,
        )
    }

    /// Only for tables of this register that were built or accepted.
    fn own(&self, k: u32, tables: Tables<'_>) -> Index {
        Index {
            items: self.items,
            labels: self.labels,
            k,
            lists: Lists {
                levels: tables.levels[..levels_len(self.items, k)].to_vec(),
                starts: tables.starts.to_vec(),
                order: tables.order.to_vec(),
                entries: tables.entries.to_vec(),
            },
            answers: self.answers.clone(),
            area: self.area.clone(),
        }
    }
}

/// The tables of a register, built or accepted, and the lists that are lent for answers from
/// them. An edge that is added to the register later is not in it.
#[derive(Clone, Debug)]
pub struct Index {
    items: u32,
    labels: u32,
    k: u32,
    lists: Lists,
    answers: Vec<u32>,
    area: Vec<u8>,
}

impl Index {
    /// How many classes, connected pairs and entries there are.
    pub fn built(&self) -> Built {
        Built {
            classes: self.lists.starts.len() as u32 - 1,
            pairs: self.lists.order.len() as u32,
            entries: self.lists.entries.len() as u32 / 2,
        }
    }

    /// The four tables, each as long as it has to be.
    pub fn tables(&self) -> Tables<'_> {
        self.lists.tables()
    }

    /// The positions of the pairs that meet a query, ascending, from the tables ([`stored`]).
    /// There is always room for them.
    pub fn ask(&mut self, query: &Query) -> Result<&[u32], Refusal> {
        let Index {
            items,
            labels,
            k,
            lists,
            answers,
            area,
        } = self;
        let tables = lists.tables().stored(*items, *k);
        stored(*items, *labels, tables, query.tokens(), answers, area)
    }

    /// The classes whose pairs meet a query of diameter at most k ([`class`]).
    pub fn classes(&mut self, query: &Query) -> Result<&[u32], Refusal> {
        let Index {
            items,
            labels,
            k,
            lists,
            answers,
            area,
        } = self;
        let tables = lists.tables().stored(*items, *k);
        class(*items, *labels, *k, tables, query.tokens(), answers, area)
    }

    /// The positions of the pairs of a class, ascending ([`class_pairs`]).
    pub fn pairs(&self, class: u32) -> Result<&[u32], Refusal> {
        class_pairs(class, &self.lists.starts, &self.lists.order)
    }

    /// The entries of a sequence of step symbols, code and class of each ([`lookup`]).
    pub fn lookup(&self, symbols: &[u8]) -> Result<&[u32], Refusal> {
        lookup(symbols, &self.lists.entries)
    }
}

#[derive(Clone, Debug)]
struct Lists {
    levels: Vec<u32>,
    starts: Vec<u32>,
    order: Vec<u32>,
    entries: Vec<u32>,
}

impl Lists {
    fn tables(&self) -> Tables<'_> {
        Tables {
            levels: &self.levels,
            starts: &self.starts,
            order: &self.order,
            entries: &self.entries,
        }
    }
}
