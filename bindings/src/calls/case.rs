//! The text form of a call and of its answer (docs/TRIAL.md).

use super::Outcome;
use std::fmt::{Debug, Write};
use std::str::SplitAsciiWhitespace;

/// A call as text: a letter, the entry's numbers, its lists.
pub(super) struct Case {
    line: String,
}

impl Case {
    pub fn new(letter: char, numbers: &[u32]) -> Case {
        let mut line = String::from(letter);
        for number in numbers {
            push(&mut line, number);
        }
        Case { line }
    }

    /// Adds a list: its count and its numbers, three or more equal ones in a row as a run.
    pub fn list<N: Copy + Into<u32> + PartialEq>(mut self, list: &[N]) -> Case {
        push(&mut self.line, list.len());
        for run in list.chunk_by(|one, next| one == next) {
            let number: u32 = run[0].into();
            match run.len() {
                1 => push(&mut self.line, number),
                2 => push(&mut self.line, format_args!("{number} {number}")),
                count => push(&mut self.line, format_args!("{count}*{number}")),
            }
        }
        self
    }

    /// The case, with LF.
    pub fn line(mut self) -> String {
        self.line.push('\n');
        self.line
    }
}

fn push(line: &mut String, word: impl std::fmt::Display) {
    write!(line, " {word}").expect("a string takes all text");
}

/// An answer as text, read from the front. What is no answer to the case is a panic.
pub(super) struct Answer<'a> {
    words: SplitAsciiWhitespace<'a>,
}

impl<'a> Answer<'a> {
    /// Takes number, a, b, c.
    pub fn new(line: &'a str) -> (Outcome, Answer<'a>) {
        let words = line.split_ascii_whitespace();
        let mut answer = Answer { words };
        let [number, a, b, c] = [(); 4].map(|_| answer.number());
        (Outcome { number, a, b, c }, answer)
    }

    /// Takes a list that the entry only reads: it has to be the one of the case.
    pub fn unchanged<N: Copy + Into<u32>>(mut self, list: &[N]) -> Answer<'a> {
        let before: Vec<u32> = list.iter().map(|number| (*number).into()).collect();
        let after = self.list(list.len());
        assert!(
            after == before,
            "kavizhuran: the driver changed a list that it only reads"
        );
        self
    }

    /// Takes a list that the entry may write, into the one that was lent.
    pub fn written<N: TryFrom<u32, Error: Debug>>(mut self, list: &mut [N]) -> Answer<'a> {
        let after = self.list(list.len());
        for (place, number) in list.iter_mut().zip(after) {
            *place = N::try_from(number).expect("kavizhuran: the driver wrote no byte");
        }
        self
    }

    /// Nothing may follow.
    pub fn end(mut self) {
        let rest = self.words.next();
        assert!(
            rest.is_none(),
            "kavizhuran: the driver wrote {rest:?} behind its answer"
        );
    }

    fn list(&mut self, length: usize) -> Vec<u32> {
        let count = self.number() as usize;
        assert!(
            count == length,
            "kavizhuran: the driver has {count} numbers for {length}"
        );
        let mut list = Vec::with_capacity(length);
        while list.len() < length {
            let (count, number) = self.run();
            let fits = 0 < count && count <= length - list.len();
            assert!(
                fits,
                "kavizhuran: the driver wrote a run of {count}, which its list lacks"
            );
            list.resize(list.len() + count, number);
        }
        list
    }

    /// A number alone is a run of one.
    fn run(&mut self) -> (usize, u32) {
        let word = self.word();
        match word.split_once('*') {
            Some((count, number)) => (parse(count) as usize, parse(number)),
            None => (1, parse(word)),
        }
    }

    fn number(&mut self) -> u32 {
        parse(self.word())
    }

    fn word(&mut self) -> &'a str {
        self.words
            .next()
            .expect("kavizhuran: the driver's answer is cut short")
    }
}

fn parse(word: &str) -> u32 {
    let number = word.parse();
    number.unwrap_or_else(|_| panic!("kavizhuran: the driver wrote {word:?} for a number"))
}

#[cfg(test)]
mod tests {
    use super::*;

    #[test]
    fn a_case_as_the_text_form_has_it() {
        let case = Case::new('D', &[4, 2]).list(&[0u32, 2, 0, 1, 2, 0, 3, 2, 1]);
        let case = case
            .list(&[1u8, 2, 32])
            .list(&[900u32; 5])
            .list(&[7u8; 146]);
        let line = "D 4 2 9 0 2 0 1 2 0 3 2 1 3 1 2 32 5 5*900 146 146*7\n";
        assert_eq!(case.line(), line);
        let empty = Case::new('L', &[]).list::<u8>(&[]).list(&[6u32, 6]);
        assert_eq!(empty.line(), "L 0 2 6 6\n");
    }

    #[test]
    fn an_answer_is_taken_apart() {
        let (outcome, answer) = Answer::new("0 2 0 0 2 1 32 4 8 9 2*900 3 2*0 7\n");
        let (mut answers, mut area) = ([900u32; 4], [7u8; 3]);
        let answer = answer.unchanged(&[1u8, 32]).written(&mut answers);
        answer.written(&mut area).end();
        assert_eq!(
            outcome,
            Outcome {
                number: 0,
                a: 2,
                b: 0,
                c: 0
            }
        );
        assert_eq!((answers, area), ([8, 9, 900, 900], [0, 0, 7]));
    }

    #[test]
    #[should_panic(expected = "changed a list")]
    fn a_changed_list() {
        let (_, answer) = Answer::new("0 0 0 0 2 1 33");
        answer.unchanged(&[1u8, 32]);
    }

    #[test]
    #[should_panic(expected = "cut short")]
    fn a_short_answer() {
        let (_, answer) = Answer::new("0 0 0 0 2 1");
        answer.unchanged(&[1u8, 32]);
    }

    #[test]
    #[should_panic(expected = "a run of 3")]
    fn a_run_past_its_list() {
        let (_, answer) = Answer::new("0 0 0 0 2 3*1");
        answer.unchanged(&[1u8, 1]);
    }

    #[test]
    #[should_panic(expected = "behind its answer")]
    fn a_long_answer() {
        let (_, answer) = Answer::new("0 0 0 0 1 1 1");
        answer.unchanged(&[1u8]).end();
    }

    #[test]
    #[should_panic(expected = "\"no\" for a number")]
    fn no_answer() {
        Answer::new("no case\n");
    }
}
