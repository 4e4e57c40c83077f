//! Stored tables for the check: as built, finer, or damaged.

use super::graphs::Plan;
use super::random::Random;
use crate::graph::Graph;
use crate::levels::{number_level, number_levels, traits, Below, Traits};
use crate::lists;
use std::collections::BTreeMap;

/// Tables with the lists cut to their counts.
#[derive(Clone, Debug)]
pub struct Stored {
    pub levels: Vec<Vec<u32>>,
    pub starts: Vec<u32>,
    pub order: Vec<u32>,
    pub entries: Vec<u32>,
}

/// No list of entries in a case is longer.
const MOST_ENTRIES: u64 = 19_000;

impl Stored {
    pub fn of_levels(graph: &Graph, levels: Vec<Vec<u32>>) -> Stored {
        let mut stored = Stored {
            levels,
            starts: Vec::new(),
            order: Vec::new(),
            entries: Vec::new(),
        };
        stored.remake_lists(graph);
        stored
    }

    pub fn built(plan: &Plan) -> Stored {
        let graph = plan.graph();
        Stored::of_levels(&graph, number_levels(&graph, plan.k as usize))
    }

    /// The lists that the last level gives, where its numbers have no gap.
    fn remake_lists(&mut self, graph: &Graph) {
        let k = self.levels.len();
        let last = &self.levels[k - 1];
        if renumbered(last) != *last {
            return;
        }
        (self.starts, self.order) = lists::starts_and_order(last);
        self.entries = lists::entries(graph, k, last, MOST_ENTRIES).numbers;
    }

    /// Numbers the levels above level i anew, over what is stored there.
    fn remake_above(&mut self, graph: &Graph, i: usize) {
        for above in i + 1..=self.levels.len() {
            let level = number_level(graph, above, Some(&self.levels[above - 2]));
            self.levels[above - 1] = level;
        }
    }
}

/// Numbers the classes of a level from 1 in the order in which they appear; 0 stays 0.
fn renumbered(level: &[u32]) -> Vec<u32> {
    let mut new: BTreeMap<u32, u32> = BTreeMap::new();
    let mut numbers = Vec::new();
    for old in level {
        let next = new.len() as u32 + 1;
        let number = if *old == 0 {
            0
        } else {
            *new.entry(*old).or_insert(next)
        };
        numbers.push(number);
    }
    numbers
}

/// Finer tables that the check must accept: some level is split, the levels above it follow,
/// the lists are made anew.
pub fn finer(random: &mut Random, plan: &Plan, stored: &mut Stored) {
    let graph = plan.graph();
    let i = random.between(1, stored.levels.len());
    split(random, &mut stored.levels[i - 1]);
    stored.remake_above(&graph, i);
    if random.once_in(3) {
        let last = stored.levels.len() - 1;
        split(random, &mut stored.levels[last]);
    }
    stored.remake_lists(&graph);
}

/// Some pairs leave their class: those of one class for one new class, or each for its own.
fn split(random: &mut Random, level: &mut Vec<u32>) {
    let rate = random.pick(&[1, 2, 4, 8]);
    let apart = random.once_in(3);
    *level = renumbered(level);
    let classes = lists::class_count(level);
    let mut own = 2 * classes;
    for number in level.iter_mut().filter(|number| **number != 0) {
        if random.once_in(rate) {
            own += 1;
            *number = if apart { own } else { *number + classes };
        }
    }
    *level = renumbered(level);
}

/// One change that the check should see. Some are harmless on some graphs: what is expected is
/// worked out afterwards, not here.
pub fn damage(random: &mut Random, plan: &Plan, stored: &mut Stored) {
    let graph = plan.graph();
    let i = random.between(1, stored.levels.len());
    let level = &mut stored.levels[i - 1];
    match random.below(12) {
        0 | 1 => change_number(random, level),
        2 | 3 => merge(random, &graph, level),
        4 => split(random, level),
        5 => exchange(random, level),
        6..=8 => {
            one_way(random, &graph, stored);
            return stored.remake_lists(&graph);
        }
        9 => stored.levels[i - 1] = stored.levels[i.max(2) - 2].clone(),
        _ => return damage_list(random, stored),
    }
    if random.once_in(2) {
        stored.remake_above(&graph, i);
    }
    if !random.once_in(3) {
        stored.remake_lists(&graph);
    }
}

/// One number of a level becomes another: too small, too large, another class, or a new class of
/// one pair.
fn change_number(random: &mut Random, level: &mut Vec<u32>) {
    if level.is_empty() {
        return;
    }
    let mut place = random.below(level.len());
    let zeros: Vec<usize> = (0..level.len()).filter(|zero| level[*zero] == 0).collect();
    if !zeros.is_empty() && random.once_in(3) {
        place = random.pick(&zeros);
    }
    let next = lists::class_count(level).saturating_add(1);
    if random.once_in(3) {
        level[place] = next;
        *level = renumbered(level);
        return;
    }
    let other = level[random.below(level.len())];
    let beyond = level.len() as u32 + random.below(3) as u32;
    let after = next.saturating_add(1);
    let choices = [
        0,
        1,
        next - 1,
        next,
        after,
        beyond,
        other,
        u32::MAX - 1,
        u32::MAX,
    ];
    level[place] = random.pick(&choices);
}

/// Two classes become one; mostly two that rule B does not tell apart.
fn merge(random: &mut Random, graph: &Graph, level: &mut Vec<u32>) {
    *level = renumbered(level);
    let firsts = lists::first_positions(level);
    if firsts.is_empty() {
        return;
    }
    let one = random.below(firsts.len());
    let symbols = |class: usize| {
        let first = firsts[class];
        graph.symbols_from_to(first / graph.items, first % graph.items)
    };
    let near = |class: &usize| *class != one && symbols(*class) == symbols(one);
    let mut others: Vec<usize> = (0..firsts.len()).filter(near).collect();
    if others.is_empty() || random.once_in(6) {
        others = (0..firsts.len()).collect();
    }
    let other = random.pick(&others) as u32 + 1;
    for number in level.iter_mut().filter(|number| **number == one as u32 + 1) {
        *number = other;
    }
    if !random.once_in(4) {
        *level = renumbered(level);
    }
}

/// Two classes exchange their numbers: the order of first appearance is lost.
fn exchange(random: &mut Random, level: &mut [u32]) {
    let largest = lists::class_count(level) as usize;
    if largest < 2 {
        return;
    }
    let one = random.between(1, largest) as u32;
    let other = random.between(1, largest) as u32;
    for number in level {
        if *number == one {
            *number = other;
        } else if *number == other {
            *number = one;
        }
    }
}

/// A level numbered with one half of rule C alone: a pair joins the first class whose first pair
/// has a twin for each of its midpoints, or the first whose midpoints all have twins here.
fn one_way(random: &mut Random, graph: &Graph, stored: &mut Stored) {
    let k = stored.levels.len();
    let i = random.between(k.min(2), k);
    let connected = graph.connected_within(i);
    let below = (i > 1).then(|| Below {
        numbers: &stored.levels[i - 2],
        connected: graph.connected_within(i - 1),
    });
    let poorer = random.once_in(2);
    let mut firsts: Vec<Traits> = Vec::new();
    let mut level = vec![0; graph.items * graph.items];
    for position in connected.positions() {
        let position = position as usize;
        let (v, u) = (position / graph.items, position % graph.items);
        let own = traits(graph, below.as_ref(), v, u);
        let joins = |first: &Traits| {
            let (few, many) = if poorer { (&own, first) } else { (first, &own) };
            few.0 == many.0 && few.1 == many.1 && few.2.is_subset(&many.2)
        };
        let class = firsts.iter().position(joins).unwrap_or(firsts.len());
        level[position] = class as u32 + 1;
        if class == firsts.len() {
            firsts.push(own);
        }
    }
    stored.levels[i - 1] = level;
    stored.remake_above(graph, i);
}

/// One of the three lists gets another number, loses or gains one, or two change places.
pub fn damage_list(random: &mut Random, stored: &mut Stored) {
    let list = match random.below(4) {
        0 => &mut stored.starts,
        1 => &mut stored.order,
        _ => &mut stored.entries,
    };
    let place = random.below(list.len() + 1);
    match random.below(8) {
        0 => list.push(random.pick(&[0, 1, 17, u32::MAX])),
        1 => list.truncate(list.len().saturating_sub(1)),
        2 => list.clear(),
        3 => list.insert(place, 1),
        4 => list.truncate(place),
        _ if place == list.len() => list.push(0),
        5 if place > 0 => list.swap(place, place - 1),
        6 => list[place] ^= 1 << random.below(32),
        _ => list[place] = list[place].wrapping_add(1),
    }
}
