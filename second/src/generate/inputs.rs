//! Whole inputs of the program `answer`: the input of a seed and an index.

use super::graphs::{self, Plan};
use super::random::Random;
use super::{limits, queries};

pub fn input(seed: u64, index: u64) -> Vec<u8> {
    let random = &mut Random::new(seed ^ 0x616E_7377_6572, index);
    let plan = match random.below(100) {
        0 => limits::edges(random),
        1..=2 => limits::items(random),
        3..=4 => limits::entries(random),
        5 => limits::exact_entries(random),
        6 => limits::answers(),
        _ => graphs::small(random),
    };
    let mut lines = frames(random, &plan);
    for _ in 0..random.pick(&[0, 0, 0, 0, 1, 1, 2]) {
        spoil(random, &mut lines);
    }
    let mut bytes = lines.join(&b'\n');
    if !random.once_in(5) {
        bytes.push(b'\n');
    }
    if random.once_in(25) && !bytes.is_empty() {
        let place = random.below(bytes.len());
        bytes[place] = random.pick(&[
            b'a', b'f', b'G', b'\r', b' ', b'\n', b'0', 0, 255, b'/', b':', b'@',
        ]);
    }
    bytes
}

/// 01, the 02s, some 03s.
fn frames(random: &mut Random, plan: &Plan) -> Vec<Vec<u8>> {
    let mut plan = plan.clone();
    if random.once_in(8) {
        let wrong = random.below(3);
        plan.labels = if wrong == 0 {
            random.pick(&[0, 9, 255])
        } else {
            plan.labels
        };
        plan.k = if wrong == 1 {
            random.pick(&[0, 5, 255])
        } else {
            plan.k
        };
        plan.items = if wrong == 2 {
            plan.items.saturating_sub(1)
        } else {
            plan.items
        };
    }
    let mut lines = vec![sizes(plan.items, plan.labels, plan.k)];
    lines.extend(plan.edges.chunks(3).map(edge));
    for _ in 0..random.pick(&[0, 1, 1, 2, 3, 5]) {
        let mut tokens = queries::good(random, plan.labels);
        if random.once_in(4) {
            queries::spoil(random, plan.labels, &mut tokens);
        }
        lines.push(tokens_line(&tokens));
    }
    lines
}

fn sizes(items: u32, labels: u32, k: u32) -> Vec<u8> {
    format!("01{items:04X}{labels:02X}{k:02X}").into_bytes()
}

fn edge(edge: &[u32]) -> Vec<u8> {
    format!("02{:04X}{:04X}{:02X}", edge[0], edge[1], edge[2]).into_bytes()
}

fn tokens_line(tokens: &[u8]) -> Vec<u8> {
    let mut line = String::from("03");
    for token in tokens {
        line.push_str(&format!("{token:02X}"));
    }
    line.into_bytes()
}

/// One thing that may leave the frame.
fn spoil(random: &mut Random, lines: &mut Vec<Vec<u8>>) {
    let place = random.below(lines.len() + 1);
    match random.below(13) {
        0 => lines.push(random.pick(&[&b""[..], b"", b"\r", b" "]).to_vec()),
        1 => lines.truncate(place),
        2 => drop(lines.drain(..1.min(lines.len()))),
        3..=8 => lines.insert(place, new_line(random)),
        _ if place < lines.len() => spoil_line(random, &mut lines[place]),
        _ => (),
    }
}

/// A line that does not stand everywhere, or nowhere at all.
fn new_line(random: &mut Random) -> Vec<u8> {
    let digits = random.pick(&[508, 510, 511, 512, 513, 514, 600]);
    let other = random.pick(&[&b"00"[..], b"04", b"81", b"FF", b"0", b"3", b"83"]);
    match random.below(7) {
        0 => random.pick(&[&b""[..], b"", b"\r"]).to_vec(),
        1 => sizes(2, 1, 1),
        2 => edge(&[0, 0, 0]),
        3 => edge(&[40, 0, 0]),
        4 => b"03".to_vec(),
        5 => [b"03".to_vec(), vec![b'0'; digits - 2]].concat(),
        _ => other.to_vec(),
    }
}

/// A line loses or gains something, or has lower-case digits.
fn spoil_line(random: &mut Random, line: &mut Vec<u8>) {
    match random.below(7) {
        0 => line.make_ascii_lowercase(),
        1 => line.push(b'\r'),
        2 => line.truncate(line.len().saturating_sub(1)),
        3 => line.push(b'0'),
        4 => line.extend(b"00"),
        5 => line.insert(0, b' '),
        _ => line.truncate(random.below(line.len() + 1)),
    }
}
