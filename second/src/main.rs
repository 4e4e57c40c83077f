//! The commands; `second` without arguments lists them.

use second::case::Case;
use second::generate::{cases, inputs};
use second::kinds::kinds;
use second::{compare, program};
use std::collections::BTreeMap;
use std::io::{self, BufRead, BufWriter, Read, Write};
use std::process::ExitCode;

const USAGE: &str = "usage:
  second cases SEED COUNT                       print library cases
  second kinds SEED COUNT                       count what these cases try
  second expect                                 cases on standard input, expected lines out
  second inputs SEED COUNT DIR                  write inputs of `answer` as files of DIR
  second answer                                 the program itself
  second compare SEED COUNT -- COMMAND..        compare COMMAND with `expect`, case by case
  second compare-answer SEED COUNT -- COMMAND.. compare COMMAND with `answer`, input by input";

fn main() -> ExitCode {
    let words: Vec<String> = std::env::args().skip(1).collect();
    match run(&words) {
        Ok(true) => ExitCode::SUCCESS,
        Ok(false) => ExitCode::FAILURE,
        Err(message) => {
            eprintln!("{message}");
            ExitCode::from(2)
        }
    }
}

/// Ok(false) after a comparison that found a difference.
fn run(words: &[String]) -> Result<bool, String> {
    let words: Vec<&str> = words.iter().map(|word| word.as_str()).collect();
    match words[..] {
        ["cases", seed, count] => print_cases(number(seed)?, number(count)?).map(|_| true),
        ["kinds", seed, count] => {
            print_kinds(number(seed)?, number(count)?);
            Ok(true)
        }
        ["expect"] => expect().map(|_| true),
        ["inputs", seed, count, directory] => {
            write_inputs(number(seed)?, number(count)?, directory).map(|_| true)
        }
        ["answer"] => answer().map(|_| true),
        ["compare", seed, count, "--", ref command @ ..] if !command.is_empty() => {
            compare::library(number(seed)?, number(count)?, command)
        }
        ["compare-answer", seed, count, "--", ref command @ ..] if !command.is_empty() => {
            compare::program(number(seed)?, number(count)?, command)
        }
        _ => Err(USAGE.to_string()),
    }
}

fn number(word: &str) -> Result<u64, String> {
    word.parse().map_err(|_| format!("no number: {word}"))
}

fn print_cases(seed: u64, count: u64) -> Result<(), String> {
    let mut output = BufWriter::new(io::stdout().lock());
    for index in 0..count {
        let line = cases::case(seed, index).print();
        writeln!(output, "{line}").map_err(|error| error.to_string())?;
    }
    output.flush().map_err(|error| error.to_string())
}

/// A line for each kind: how many cases have it, and its name.
fn print_kinds(seed: u64, count: u64) {
    let mut counts: BTreeMap<String, u64> = BTreeMap::new();
    for index in 0..count {
        let case = cases::case(seed, index);
        let number = case.run().0.number;
        *counts
            .entry(format!("{} returns {number:2}", case.entry))
            .or_default() += 1;
        for kind in kinds(&case) {
            *counts.entry(kind).or_default() += 1;
        }
    }
    for (kind, count) in counts {
        println!("{count:6} {kind}");
    }
}

fn expect() -> Result<(), String> {
    let mut output = BufWriter::new(io::stdout().lock());
    for (before, line) in io::stdin().lock().lines().enumerate() {
        let line = line.map_err(|error| error.to_string())?;
        let case = Case::parse(&line).map_err(|fault| format!("case {}: {fault}", before + 1))?;
        writeln!(output, "{}", case.expected()).map_err(|error| error.to_string())?;
    }
    output.flush().map_err(|error| error.to_string())
}

fn write_inputs(seed: u64, count: u64, directory: &str) -> Result<(), String> {
    std::fs::create_dir_all(directory).map_err(|error| error.to_string())?;
    for index in 0..count {
        let path = format!("{directory}/{index:06}.txt");
        let written = std::fs::write(path, inputs::input(seed, index));
        written.map_err(|error| error.to_string())?;
    }
    Ok(())
}

fn answer() -> Result<(), String> {
    let mut input = Vec::new();
    let read = io::stdin().lock().read_to_end(&mut input);
    read.map_err(|error| error.to_string())?;
    let written = io::stdout().lock().write_all(&program::answer(&input));
    written.map_err(|error| error.to_string())
}
