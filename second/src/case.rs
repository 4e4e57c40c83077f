//! Library cases as text, one a line, and what is expected of each. docs/TRIAL.md describes the
//! format.

use crate::answers::{class_answer, direct_answer, stored_answer, Answered, Sizes};
use crate::build::{build, Tables};
use crate::check::check;
use crate::outcome::Outcome;
use crate::parts::{pairs_of_class, sequence_lookup};

/// One call of an entry: its letter, its numbers and its lists in the order of docs/TRIAL.md.
/// Bytes (tokens, symbols, area) stand here as numbers like all else.
#[derive(Clone, Debug, PartialEq, Eq)]
pub struct Case {
    pub entry: char,
    pub numbers: Vec<u32>,
    pub lists: Vec<Vec<u32>>,
}

/// What a list holds: decides its maximal length and whether its numbers are bytes.
#[derive(Clone, Copy, Debug, PartialEq, Eq)]
pub enum Kind {
    Edges,
    Levels,
    Table,
    Starts,
    Order,
    Entries,
    Tokens,
    Symbols,
    Answers,
    Area,
}

impl Kind {
    /// No case has a longer list.
    pub fn most(self) -> usize {
        match self {
            Kind::Edges => 12_300,
            Kind::Levels => 4 * 129 * 129 + 8,
            Kind::Table | Kind::Starts | Kind::Order => 129 * 129 + 9,
            Kind::Entries => 40_000,
            Kind::Tokens | Kind::Symbols => 80,
            Kind::Answers => 16_700,
            Kind::Area => 9 * 129 * 129 + 16,
        }
    }

    pub fn holds_bytes(self) -> bool {
        matches!(self, Kind::Tokens | Kind::Symbols | Kind::Area)
    }
}

/// How many numbers an entry takes, and its lists; None for a letter that names no entry.
pub fn shape(entry: char) -> Option<(usize, &'static [Kind])> {
    use Kind::*;
    match entry {
        'B' | 'C' => Some((3, &[Edges, Levels, Starts, Order, Entries, Area])),
        'D' => Some((2, &[Edges, Tokens, Answers, Area])),
        'S' => Some((2, &[Table, Entries, Tokens, Answers, Area])),
        'K' => Some((3, &[Table, Entries, Tokens, Answers, Area])),
        'P' => Some((1, &[Starts, Order])),
        'L' => Some((0, &[Symbols, Entries])),
        _ => None,
    }
}

impl Case {
    pub fn parse(line: &str) -> Result<Case, String> {
        let mut words = line.split_whitespace();
        let entry = words.next().and_then(|word| word.chars().next());
        let entry = entry.ok_or("an empty line")?;
        let (count, kinds) = shape(entry).ok_or(format!("no entry {entry}"))?;
        let rest: Vec<u32> = expand(words)?;
        let mut rest = rest.into_iter();
        let mut next = || rest.next().ok_or("too few numbers".to_string());
        let mut numbers = Vec::new();
        for _ in 0..count {
            numbers.push(next()?);
        }
        let mut lists = Vec::new();
        for kind in kinds {
            let length = next()?;
            let list: Vec<u32> = (0..length).map(|_| next()).collect::<Result<_, _>>()?;
            check_list(*kind, &list)?;
            lists.push(list);
        }
        if next().is_ok() {
            return Err("too many numbers".to_string());
        }
        Ok(Case {
            entry,
            numbers,
            lists,
        })
    }

    /// The line of the case, without LF.
    pub fn print(&self) -> String {
        let mut line = String::from(self.entry);
        for number in &self.numbers {
            line.push_str(&format!(" {number}"));
        }
        print_lists(&mut line, &self.lists);
        line
    }

    /// The line that is expected of it: number a b c, then every list as it stands afterwards.
    pub fn expected(&self) -> String {
        let (outcome, lists) = self.run();
        let Outcome { number, a, b, c } = outcome;
        let mut line = format!("{number} {a} {b} {c}");
        print_lists(&mut line, &lists);
        line
    }

    /// The place of a kind of list in this case.
    pub fn place(&self, kind: Kind) -> Option<usize> {
        let (_, kinds) = shape(self.entry)?;
        kinds.iter().position(|found| *found == kind)
    }

    /// Calls the entry.
    pub fn run(&self) -> (Outcome, Vec<Vec<u32>>) {
        match self.entry {
            'B' | 'C' => self.run_tables(),
            'D' | 'S' | 'K' => self.run_answer(),
            'P' => {
                let outcome = pairs_of_class(self.numbers[0], &self.lists[0], &self.lists[1]);
                (outcome, self.lists.clone())
            }
            _ => {
                let outcome = sequence_lookup(&bytes(&self.lists[0]), &self.lists[1]);
                (outcome, self.lists.clone())
            }
        }
    }

    fn run_tables(&self) -> (Outcome, Vec<Vec<u32>>) {
        let [edges, levels, starts, order, entries, area] = &self.lists[..] else {
            unreachable!("build and check have six lists");
        };
        let lent = Tables {
            levels: levels.clone(),
            starts: starts.clone(),
            order: order.clone(),
            entries: entries.clone(),
            area: bytes(area),
        };
        let [items, labels, k] = self.numbers[..] else {
            unreachable!("build and check have three numbers");
        };
        let call = if self.entry == 'B' { build } else { check };
        let (outcome, after) = call(items, labels, k, edges, lent);
        let Tables {
            levels,
            starts,
            order,
            entries,
            area,
        } = after;
        let area = numbers(&area);
        (
            outcome,
            vec![edges.clone(), levels, starts, order, entries, area],
        )
    }

    fn run_answer(&self) -> (Outcome, Vec<Vec<u32>>) {
        let (rest, buffers) = self.lists.split_at(self.lists.len() - 2);
        let (answers, area) = (buffers[0].clone(), bytes(&buffers[1]));
        let tokens = bytes(&rest[rest.len() - 1]);
        let (items, labels) = (self.numbers[0], self.numbers[1]);
        let (first, second) = (&rest[0], &rest[1]);
        let answered = match self.entry {
            'D' => direct_answer(items, labels, first, &tokens, answers, area),
            'S' => stored_answer(items, labels, first, second, &tokens, answers, area),
            _ => {
                let k = self.numbers[2];
                let sizes = Sizes { items, labels, k };
                class_answer(sizes, first, second, &tokens, answers, area)
            }
        };
        let Answered {
            outcome,
            answers,
            area,
        } = answered;
        let after = [rest, &[answers, numbers(&area)]].concat();
        (outcome, after)
    }
}

fn check_list(kind: Kind, list: &[u32]) -> Result<(), String> {
    if list.len() > kind.most() {
        return Err(format!("{kind:?} has {} numbers", list.len()));
    }
    if kind.holds_bytes() && list.iter().any(|number| *number > 255) {
        return Err(format!("{kind:?} has a number above 255"));
    }
    Ok(())
}

/// Only for lists that `check_list` has seen.
fn bytes(list: &[u32]) -> Vec<u8> {
    list.iter().map(|number| *number as u8).collect()
}

fn numbers(list: &[u8]) -> Vec<u32> {
    list.iter().map(|byte| u32::from(*byte)).collect()
}

/// A word is a number or a run `count*number`.
pub fn expand<'a>(words: impl Iterator<Item = &'a str>) -> Result<Vec<u32>, String> {
    let number = |text: &str| {
        text.parse::<u32>()
            .map_err(|_| format!("no number: {text}"))
    };
    let mut all = Vec::new();
    for word in words {
        match word.split_once('*') {
            None => all.push(number(word)?),
            Some((count, repeated)) => {
                let count = number(count)? as usize;
                if count > Kind::Area.most() {
                    return Err(format!("too long a run: {word}"));
                }
                all.resize(all.len() + count, number(repeated)?);
            }
        }
    }
    Ok(all)
}

/// Each list as its count and its numbers; three or more equal numbers in a row as a run.
fn print_lists(line: &mut String, lists: &[Vec<u32>]) {
    for list in lists {
        line.push_str(&format!(" {}", list.len()));
        for run in list.chunk_by(|one, next| one == next) {
            match run {
                [one] => line.push_str(&format!(" {one}")),
                [one, _] => line.push_str(&format!(" {one} {one}")),
                _ => line.push_str(&format!(" {}*{}", run.len(), run[0])),
            }
        }
    }
}
