//! Token lists: good queries, and queries with one fault or more.

use super::random::Random;

/// A query of at most 64 tokens with at most 8 operands waiting.
pub fn good(random: &mut Random, labels: u32) -> Vec<u8> {
    match random.below(12) {
        0 => full_length(random, labels),
        1 => eight_waiting(random, labels),
        _ => {
            let tokens = random.pick(&[1, 2, 2, 3, 3, 4, 5, 8]);
            operands(random, labels, tokens, 8)
        }
    }
}

/// A query that joins at most k steps, for the class answer.
pub fn within_diameter(random: &mut Random, labels: u32, k: u32) -> Vec<u8> {
    let mut tokens = Vec::new();
    for part in 0..random.between(1, 3) {
        for step in 0..random.between(1, k as usize) {
            tokens.push(operand(random, labels));
            if step > 0 {
                tokens.push(random.pick(&[32, 32, 33]));
            }
        }
        if part > 0 {
            tokens.push(33);
        }
    }
    tokens
}

/// A query with the given number of operands.
fn operands(random: &mut Random, labels: u32, count: usize, most: usize) -> Vec<u8> {
    let (mut tokens, mut left, mut waiting) = (Vec::new(), count, 0);
    while left > 0 || waiting > 1 {
        let combine = left == 0 || waiting == most || waiting > 1 && random.once_in(2);
        if combine {
            tokens.push(random.pick(&[32, 32, 33]));
            waiting -= 1;
        } else {
            tokens.push(operand(random, labels));
            waiting += 1;
            left -= 1;
        }
    }
    tokens
}

/// A query of n operands has 2n-1 tokens: 63 is the most that can be answered. The 64th leaves
/// an operand over.
fn full_length(random: &mut Random, labels: u32) -> Vec<u8> {
    let mut tokens = operands(random, labels, 32, 7);
    if random.once_in(2) {
        let place = random.between(0, 1);
        tokens.insert(place, 0);
    }
    tokens
}

fn eight_waiting(random: &mut Random, labels: u32) -> Vec<u8> {
    let mut tokens: Vec<u8> = (0..8).map(|_| operand(random, labels)).collect();
    tokens.extend((0..7).map(|_| random.pick(&[32, 33])));
    tokens
}

fn operand(random: &mut Random, labels: u32) -> u8 {
    if random.once_in(7) || labels == 0 {
        return 0;
    }
    random.between(1, 2 * labels.min(8) as usize) as u8
}

/// Puts one fault, or what may be one, into a query.
pub fn spoil(random: &mut Random, labels: u32, tokens: &mut Vec<u8>) {
    let place = random.below(tokens.len() + 1);
    match random.below(10) {
        0 => tokens.clear(),
        1 => tokens.resize(random.between(64, 66), 0),
        2 => {
            let unknown = [2 * labels.min(8) as u8 + 1, 17, 31, 34, 64, 71, 128, 255];
            tokens.insert(place, random.pick(&unknown));
        }
        3 => tokens.insert(place, random.pick(&[32, 33])),
        4 => {
            let waiting = random.between(7, 10);
            tokens.splice(place..place, (0..waiting).map(|_| 0));
        }
        5 => tokens.insert(place, 0),
        6 => tokens.push(0),
        7 => tokens.truncate(place),
        8 => {
            let length = random.between(63, 80);
            let all: Vec<u8> = (0..length)
                .map(|_| random.pick(&[0, 1, 2, 32, 33]))
                .collect();
            *tokens = all;
        }
        _ => {
            let byte = random.below(256) as u8;
            tokens.insert(place, byte);
        }
    }
    tokens.truncate(80);
}
