//! Runs a command on generated cases or inputs and compares what it prints with what is
//! expected. A difference is printed whole, so that it can be run again alone.

use crate::case::expand;
use crate::generate::{cases, inputs};
use crate::program::answer;
use std::io::{self, BufRead, BufReader, BufWriter, Read, Write};
use std::process::{Child, Command, Stdio};
use std::sync::mpsc::{self, Receiver};
use std::thread;
use std::time::Duration;

/// How many differences are printed whole.
const SHOWN: u64 = 5;
/// How long one line of a library case may take.
const CASE_LIMIT: Duration = Duration::from_secs(180);
/// How long one run of the program may take.
const INPUT_LIMIT: Duration = Duration::from_secs(60);

#[derive(Default)]
struct Tally {
    passed: u64,
    failed: u64,
}

impl Tally {
    /// `text` is asked for only where the difference is shown.
    fn failure(&mut self, text: impl FnOnce() -> String) {
        self.failed += 1;
        if self.failed <= SHOWN {
            println!("{}", text());
        }
    }

    fn finish(self) -> bool {
        println!("{} passed, {} failed", self.passed, self.failed);
        self.failed == 0
    }
}

fn start(command: &[&str]) -> Result<Child, String> {
    Command::new(command[0])
        .args(&command[1..])
        .stdin(Stdio::piped())
        .stdout(Stdio::piped())
        .spawn()
        .map_err(|error| format!("{}: {error}", command[0]))
}

/// One run of the command over all cases. True if every line is as expected and the command
/// ends well. A case is made from seed and index alone, so that the thread that writes the
/// cases and this one need not pass them on.
pub fn library(seed: u64, count: u64, command: &[&str]) -> Result<bool, String> {
    let mut child = start(command)?;
    write_cases(&mut child, seed, count);
    let lines = read_lines(&mut child);
    let mut tally = Tally::default();
    let mut silent = false;
    for index in 0..count {
        let got = if silent {
            None
        } else {
            lines.recv_timeout(CASE_LIMIT).ok()
        };
        silent = got.is_none();
        if silent && tally.failed >= SHOWN {
            tally.failed += count - index;
            break;
        }
        compare_case(&mut tally, seed, index, got.as_deref());
    }
    if silent {
        // It has ended, or takes too long: a case above tells.
        let _ = child.kill();
        child.wait().map_err(|error| error.to_string())?;
        return Ok(tally.finish());
    }
    if lines.recv_timeout(CASE_LIMIT).is_ok() {
        tally.failure(|| "the command prints more lines than there are cases".to_string());
        drop(lines);
    }
    let status = child.wait().map_err(|error| error.to_string())?;
    if !status.success() {
        tally.failure(|| format!("the command ended with {status}"));
    }
    Ok(tally.finish())
}

fn compare_case(tally: &mut Tally, seed: u64, index: u64, got: Option<&str>) {
    let case = cases::case(seed, index);
    let expected = case.expected();
    if got.is_some_and(|got| same_numbers(&expected, got)) {
        tally.passed += 1;
        return;
    }
    tally.failure(|| {
        let (case, got) = (case.print(), got.unwrap_or("no line"));
        format!("case {index} of seed {seed} differs\n{case}\nexpected\n{expected}\ngot\n{got}")
    });
}

/// Runs may be written out or not: the numbers count.
fn same_numbers(expected: &str, got: &str) -> bool {
    expected == got || expand(expected.split_whitespace()) == expand(got.split_whitespace())
}

fn write_cases(child: &mut Child, seed: u64, count: u64) {
    let mut input = BufWriter::new(child.stdin.take().expect("standard input is piped"));
    thread::spawn(move || {
        for index in 0..count {
            if writeln!(input, "{}", cases::case(seed, index).print()).is_err() {
                return;
            }
        }
    });
}

fn read_lines(child: &mut Child) -> Receiver<String> {
    let output = BufReader::new(child.stdout.take().expect("standard output is piped"));
    let (sender, receiver) = mpsc::sync_channel(64);
    thread::spawn(move || {
        for line in output.lines().map_while(Result::ok) {
            if sender.send(line).is_err() {
                return;
            }
        }
    });
    receiver
}

/// One run of the command an input.
pub fn program(seed: u64, count: u64, command: &[&str]) -> Result<bool, String> {
    let mut tally = Tally::default();
    for index in 0..count {
        let input = inputs::input(seed, index);
        let expected = answer(&input);
        let got = run_once(command, &input)?;
        if got.as_ref() == Some(&expected) {
            tally.passed += 1;
            continue;
        }
        tally.failure(|| {
            let got = got.unwrap_or(b"nothing within the time it has".to_vec());
            format!(
                "input {index} of seed {seed} differs\n{}expected\n{}got\n{}",
                readable(&input),
                readable(&expected),
                readable(&got)
            )
        });
    }
    Ok(tally.finish())
}

/// All that the command prints, or None if it takes too long.
fn run_once(command: &[&str], input: &[u8]) -> Result<Option<Vec<u8>>, String> {
    let mut child = start(command)?;
    let mut to = child.stdin.take().expect("standard input is piped");
    let mut from = child.stdout.take().expect("standard output is piped");
    let input = input.to_vec();
    // The command may stop before it has read all: then the rest has nowhere to go.
    thread::spawn(move || to.write_all(&input));
    let (sender, receiver) = mpsc::channel();
    thread::spawn(move || {
        let mut output = Vec::new();
        let read: io::Result<usize> = from.read_to_end(&mut output);
        sender.send(read.map(|_| output))
    });
    let got = receiver.recv_timeout(INPUT_LIMIT).ok().and_then(Result::ok);
    if got.is_none() {
        let _ = child.kill();
    }
    child.wait().map_err(|error| error.to_string())?;
    Ok(got)
}

/// Bytes as text, each that is no printable character or LF escaped.
fn readable(bytes: &[u8]) -> String {
    let mut text = String::new();
    for byte in bytes {
        match byte {
            b'\n' => text.push('\n'),
            _ => text.extend(byte.escape_ascii().map(char::from)),
        }
    }
    if !text.is_empty() && !text.ends_with('\n') {
        text.push_str(" (no LF here)\n");
    }
    text
}
