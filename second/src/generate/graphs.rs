//! Graphs to make cases of, always within the limits of document 01.

use super::random::Random;
use crate::graph::Graph;

/// Sizes and an edge table that no entry refuses.
#[derive(Clone, Debug)]
pub struct Plan {
    pub items: u32,
    pub labels: u32,
    pub k: u32,
    pub edges: Vec<u32>,
}

impl Plan {
    pub fn pairs(&self) -> usize {
        self.items as usize * self.items as usize
    }

    pub fn graph(&self) -> Graph {
        Graph::new(self.items as usize, self.labels as usize, &self.edges)
    }
}

/// A small graph as most cases have it. Many labels together with long sequences are rare: the
/// entry list grows with their power.
pub fn small(random: &mut Random) -> Plan {
    let items = match random.below(20) {
        0 => random.between(0, 1),
        1..=13 => random.between(1, 6),
        14..=18 => random.between(5, 10),
        _ => random.between(9, 18),
    };
    let labels = match random.below(8) {
        0..=2 => 1,
        3..=5 => 2,
        6 => 3,
        _ => random.between(3, 8),
    };
    let mut k = random.pick(&[1, 1, 2, 2, 2, 2, 3, 3, 3, 4]);
    if k > 2 && labels > 3 && !random.once_in(8) {
        k -= 2;
    }
    let edges = edges(random, items, labels);
    Plan {
        items: items as u32,
        labels: labels as u32,
        k: k as u32,
        edges,
    }
}

/// As many items as there may be, or one less. Above level 1 the graph is sparse, so that few
/// pairs are connected and the second program and the library stay quick.
pub fn large(random: &mut Random) -> Plan {
    let items = random.pick(&[127, 128, 128, 128]);
    let (labels, k) = random.pick(&[(1, 1), (1, 2), (2, 1), (2, 2), (8, 1), (1, 3), (1, 4)]);
    let count = match k {
        1 => random.pick(&[0, 100, 1000, 4096]),
        _ => random.between(0, 60),
    };
    let mut edges = Vec::new();
    for _ in 0..count {
        add_edge(random, &mut edges, items, labels);
    }
    Plan {
        items: items as u32,
        labels: labels as u32,
        k: k as u32,
        edges,
    }
}

/// Few items and 4,096 edges: most of them repeated.
pub fn many_edges(random: &mut Random) -> Plan {
    let mut plan = small(random);
    plan.items = plan.items.max(1);
    let (items, labels) = (plan.items as usize, plan.labels as usize);
    while plan.edges.len() < 3 * 4096 {
        add_edge(random, &mut plan.edges, items.min(4), labels);
    }
    plan.k = plan.k.min(2);
    plan
}

fn edges(random: &mut Random, items: usize, labels: usize) -> Vec<u32> {
    let mut edges = Vec::new();
    if items == 0 {
        return edges;
    }
    match random.below(10) {
        0 => line(&mut edges, items, false),
        1 => line(&mut edges, items, true),
        2 => star(random, &mut edges, items, labels),
        3..=5 => copies(random, &mut edges, items, labels),
        6 => dense(random, &mut edges, items, labels),
        _ => (),
    }
    for _ in 0..random.pick(&[0, 1, 2, items, 2 * items]) {
        add_edge(random, &mut edges, items, labels);
    }
    if random.once_in(6) {
        symmetric(random, &mut edges, items, labels);
    }
    if random.once_in(6) && !edges.is_empty() {
        let repeated = edges[..3 * random.between(1, edges.len() / 3)].to_vec();
        edges.extend(repeated);
    }
    edges
}

fn add_edge(random: &mut Random, edges: &mut Vec<u32>, items: usize, labels: usize) {
    let ends = [
        random.below(items),
        random.below(items),
        random.below(labels),
    ];
    edges.extend(ends.map(|number| number as u32));
}

/// 0 to 1 to 2 .., closed to a ring or not.
fn line(edges: &mut Vec<u32>, items: usize, closed: bool) {
    let steps = if closed { items } else { items - 1 };
    for source in 0..steps {
        edges.extend([source as u32, ((source + 1) % items) as u32, 0]);
    }
}

/// Edges from or to one item.
fn star(random: &mut Random, edges: &mut Vec<u32>, items: usize, labels: usize) {
    let middle = random.below(items) as u32;
    for item in 0..items as u32 {
        let label = random.below(labels) as u32;
        let ends = if random.once_in(3) {
            [item, middle]
        } else {
            [middle, item]
        };
        edges.extend(ends);
        edges.push(label);
    }
}

/// Equal parts side by side, and perhaps an edge in one of them that the others lack: pairs
/// that agree, and pairs that differ by one midpoint.
fn copies(random: &mut Random, edges: &mut Vec<u32>, items: usize, labels: usize) {
    let part = random.between(1, items.div_ceil(2));
    let mut one = Vec::new();
    for _ in 0..random.between(1, 2 * part) {
        add_edge(random, &mut one, part, labels);
    }
    for copy in 0..items / part {
        let shift = (copy * part) as u32;
        for edge in one.chunks(3) {
            if !random.once_in(20) {
                edges.extend([edge[0] + shift, edge[1] + shift, edge[2]]);
            }
        }
    }
}

/// Each edge goes both ways, and some items have loops: then the same symbols lead from an item
/// to itself and to another, and rule A alone tells the pairs apart.
fn symmetric(random: &mut Random, edges: &mut Vec<u32>, items: usize, labels: usize) {
    let back: Vec<u32> = edges
        .chunks(3)
        .flat_map(|edge| [edge[1], edge[0], edge[2]])
        .collect();
    edges.extend(back);
    for item in 0..items as u32 {
        if random.once_in(2) {
            edges.extend([item, item, random.below(labels) as u32]);
        }
    }
}

/// Most pairs are joined, by any label.
fn dense(random: &mut Random, edges: &mut Vec<u32>, items: usize, labels: usize) {
    for source in 0..items as u32 {
        for target in 0..items as u32 {
            if !random.once_in(4) {
                edges.extend([source, target, random.below(labels) as u32]);
            }
        }
    }
}
