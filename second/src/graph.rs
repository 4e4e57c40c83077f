//! The graph of an edge table that has passed refusals 1, 3 and 4.

use crate::relation::Relation;

pub struct Graph {
    pub items: usize,
    pub labels: usize,
    /// The pairs of step symbol s stand at s - 1.
    steps: Vec<Relation>,
}

impl Graph {
    /// "Edge table: 32-bit numbers, three an edge (source, target, label)"; "label l forward is
    /// 2l+1, backward 2l+2". Sets forget order and repetition.
    pub fn new(items: usize, labels: usize, edges: &[u32]) -> Graph {
        let mut steps = vec![Relation::empty(items); 2 * labels];
        for edge in edges.chunks(3) {
            let (source, target) = (edge[0] as usize, edge[1] as usize);
            let label = edge[2] as usize;
            steps[2 * label].add(source, target);
            steps[2 * label + 1].add(target, source);
        }
        Graph {
            items,
            labels,
            steps,
        }
    }

    /// The number of step symbols, 1..2L.
    pub fn symbols(&self) -> usize {
        2 * self.labels
    }

    /// All pairs that a step of this symbol leads along.
    pub fn step(&self, symbol: usize) -> &Relation {
        &self.steps[symbol - 1]
    }

    /// The step symbols that lead from v to u, ascending.
    pub fn symbols_from_to(&self, v: usize, u: usize) -> Vec<usize> {
        let all = 1..=self.symbols();
        all.filter(|symbol| self.step(*symbol).has(v, u)).collect()
    }

    /// "Two items are connected within i if at most i steps, forward or backward, lead from the
    /// first to the second. No step at all connects an item with itself."
    pub fn connected_within(&self, i: usize) -> Relation {
        let mut connected = Relation::identity(self.items);
        for _ in 0..i {
            let mut one_more = connected.clone();
            for symbol in 1..=self.symbols() {
                one_more = one_more.union(&connected.join(self.step(symbol)));
            }
            connected = one_more;
        }
        connected
    }
}
