//! Graphs at the limits of the program `answer`: 32 items, 1,024 edges, 2,048 entries, 1,024
//! answers.

use super::graphs::{self, Plan};
use super::random::Random;

/// 1,024 edges, or one less or more.
pub fn edges(random: &mut Random) -> Plan {
    let mut plan = graphs::many_edges(random);
    plan.edges
        .truncate(3 * random.pick(&[1023, 1024, 1024, 1025]));
    plan
}

/// 32 items, or less or more: more are no good frame.
pub fn items(random: &mut Random) -> Plan {
    let items = random.pick(&[31, 32, 32, 32, 33, 128, 256, 65_535]);
    let (labels, k) = random.pick(&[(1, 1), (1, 2), (2, 2), (8, 1), (1, 3)]);
    let mut edges = Vec::new();
    for _ in 0..random.between(0, 60) {
        let ends = [random.below(32), random.below(32), random.below(labels)];
        edges.extend(ends.map(|number| number as u32));
    }
    Plan {
        items,
        labels: labels as u32,
        k,
        edges,
    }
}

/// All pairs of 32 items are joined by one label: a step has 1,024 answers.
pub fn answers() -> Plan {
    let pairs = 0..32 * 32;
    Plan {
        items: 32,
        labels: 1,
        k: 1,
        edges: pairs.flat_map(|pair| [pair / 32, pair % 32, 0]).collect(),
    }
}

/// Edges of n labels between one item and itself or another. With loops 1 + 2n + (2n)² + (2n)³
/// entries: 2,048 is passed between 6 and 7 labels.
pub fn entries(random: &mut Random) -> Plan {
    let labels = random.between(5, 8) as u32;
    let items = random.between(1, 2) as u32;
    Plan {
        items,
        labels,
        k: 3,
        edges: (0..labels)
            .flat_map(|label| [0, items - 1, label])
            .collect(),
    }
}

/// 2,047, 2,048 or 2,049 entries. Each of the 255 sets of labels joins a pair of items of its
/// own: 1,024 edges, 2,048 entries of one symbol, and one of the equal pairs. Each set of one
/// label that is left out takes two entries away. A loop adds two, and a class of equal pairs.
pub fn exact_entries(random: &mut Random) -> Plan {
    let (left_out, loops) = random.pick(&[(0, 0), (1, 0), (2, 1), (2, 1)]);
    let sets = (1..256_u32).filter(|set| !(0..left_out).any(|label| *set == 1 << label));
    let pairs = (0..32_u32).flat_map(|source| (source + 1..32).map(move |target| (source, target)));
    let mut edges = Vec::new();
    for (set, (source, target)) in sets.zip(pairs) {
        for label in (0..8).filter(|label| set >> label & 1 == 1) {
            edges.extend([source, target, label]);
        }
    }
    for _ in 0..loops {
        edges.extend([31, 31, 7]);
    }
    Plan {
        items: 32,
        labels: 8,
        k: 1,
        edges,
    }
}
