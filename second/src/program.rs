//! The program `answer`: "reads standard input, lines of upper-case hexadecimal, one frame a
//! line, LF after each (the last may lack it)".

use crate::answers::stored_answer;
use crate::build::{build, Tables};
use crate::outcome::Outcome;

/// A well-formed line.
enum Frame {
    /// "01: V 4 digits, L 2, k 2."
    Sizes { items: u32, labels: u32, k: u32 },
    /// "02: source 4, target 4, label 2."
    Edge([u32; 3]),
    /// "03: tokens, 2 digits each." "A bare 03 is well formed and gets 7."
    Query(Vec<u8>),
}

/// What the lines so far have said. "One 01, then 02s, then 03s."
enum Stage {
    Start,
    Edges,
    Queries(Tables),
}

struct Program {
    items: u32,
    labels: u32,
    k: u32,
    edges: Vec<u32>,
    stage: Stage,
    output: String,
}

/// All that the program prints for an input.
pub fn answer(input: &[u8]) -> Vec<u8> {
    let mut program = Program {
        items: 0,
        labels: 0,
        k: 0,
        edges: Vec::new(),
        stage: Stage::Start,
        output: String::new(),
    };
    if let Err(refusal) = program.run(input) {
        program.print_refusal(refusal);
    }
    program.output.into_bytes()
}

/// A last LF opens no line; without one the last line ends with the input.
fn lines(input: &[u8]) -> Vec<&[u8]> {
    let mut lines: Vec<&[u8]> = input.split(|byte| *byte == b'\n').collect();
    if lines.last().is_some_and(|last| last.is_empty()) {
        lines.pop();
    }
    lines
}

impl Program {
    /// Ends with the refusal that stops the program, if one does.
    fn run(&mut self, input: &[u8]) -> Result<(), Outcome> {
        let lines = lines(input);
        for (before, line) in lines.iter().enumerate() {
            let bad_frame = Outcome::refused_at(18, before as u32 + 1);
            let frame = read_frame(line).ok_or(bad_frame)?;
            self.take(frame, bad_frame)?;
        }
        match self.stage {
            Stage::Start => Err(Outcome::refused_at(18, 1)),
            Stage::Edges => self.build_tables(),
            Stage::Queries(_) => Ok(()),
        }
    }

    /// "One 01, then 02s, then 03s; else, or on any other line, 18 and stop. Also 18: V over 32,
    /// over 1,024 edges". "The tables are built at the first well-formed 03 line".
    fn take(&mut self, frame: Frame, bad_frame: Outcome) -> Result<(), Outcome> {
        match (frame, &self.stage) {
            (Frame::Sizes { items, labels, k }, Stage::Start) if items <= 32 => {
                (self.items, self.labels, self.k) = (items, labels, k);
                self.stage = Stage::Edges;
            }
            (Frame::Edge(edge), Stage::Edges) if self.edges.len() / 3 < 1024 => {
                self.edges.extend(edge);
            }
            (Frame::Query(tokens), Stage::Edges) => {
                self.build_tables()?;
                self.question(&tokens);
            }
            (Frame::Query(tokens), Stage::Queries(_)) => self.question(&tokens),
            _ => return Err(bad_frame),
        }
        Ok(())
    }

    /// "Entry room is 2,048"; "81, classes, connected pairs, entries, 4 digits each". "Refusals
    /// 1 to 6 also stop it".
    fn build_tables(&mut self) -> Result<(), Outcome> {
        let lent = Tables {
            levels: vec![0; 4 * 32 * 32],
            starts: vec![0; 32 * 32 + 1],
            order: vec![0; 32 * 32],
            entries: vec![0; 2 * 2048],
            area: vec![0; 9 * 32 * 32],
        };
        let (built, mut tables) = build(self.items, self.labels, self.k, &self.edges, lent);
        if built.number != 0 {
            return Err(built);
        }
        tables.entries.truncate(2 * built.c as usize);
        let line = format!("81{:04X}{:04X}{:04X}\n", built.a, built.b, built.c);
        self.output.push_str(&line);
        self.stage = Stage::Queries(tables);
        Ok(())
    }

    /// "answer room 1,024; queries get the stored answer". "for each query 83, count, positions,
    /// 4 digits each"; "a refused query doesn't" stop the program.
    fn question(&mut self, tokens: &[u8]) {
        let Stage::Queries(tables) = &self.stage else {
            unreachable!("a query before the tables are built");
        };
        let pairs = (self.items * self.items) as usize;
        let table = &tables.levels[(self.k as usize - 1) * pairs..];
        let (answers, area) = (vec![0; 1024], vec![0; 9 * 32 * 32]);
        let (items, labels) = (self.items, self.labels);
        let entries = &tables.entries;
        let answered = stored_answer(items, labels, table, entries, tokens, answers, area);
        if answered.outcome.number != 0 {
            self.print_refusal(answered.outcome);
            return;
        }
        let count = answered.outcome.a;
        self.output.push_str(&format!("83{count:04X}"));
        for position in &answered.answers[..count as usize] {
            self.output.push_str(&format!("{position:04X}"));
        }
        self.output.push('\n');
    }

    /// "a refusal is FF, number 2, place or need 8 (0 if none)"
    fn print_refusal(&mut self, refusal: Outcome) {
        let line = format!("FF{:02X}{:08X}\n", refusal.number, refusal.a);
        self.output.push_str(&line);
    }
}

/// The frame on a line, or None: "any other line", or "a line over 512 digits".
fn read_frame(line: &[u8]) -> Option<Frame> {
    if line.len() > 512 || !line.len().is_multiple_of(2) {
        return None;
    }
    let bytes: Vec<u8> = line.chunks(2).map(two_digits).collect::<Option<_>>()?;
    let wide = |place: usize| u32::from(bytes[place]) * 256 + u32::from(bytes[place + 1]);
    match (bytes.first()?, bytes.len()) {
        (1, 5) => Some(Frame::Sizes {
            items: wide(1),
            labels: u32::from(bytes[3]),
            k: u32::from(bytes[4]),
        }),
        (2, 6) => Some(Frame::Edge([wide(1), wide(3), u32::from(bytes[5])])),
        (3, _) => Some(Frame::Query(bytes[1..].to_vec())),
        _ => None,
    }
}

fn two_digits(digits: &[u8]) -> Option<u8> {
    Some(16 * digit(digits[0])? + digit(digits[1])?)
}

/// Upper-case hexadecimal only.
fn digit(byte: u8) -> Option<u8> {
    match byte {
        b'0'..=b'9' => Some(byte - b'0'),
        b'A'..=b'F' => Some(byte - b'A' + 10),
        _ => None,
    }
}
