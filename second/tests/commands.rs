//! The commands: a comparison with itself passes, one with something else fails and says where.

use std::process::{Command, Output};

const SECOND: &str = env!("CARGO_BIN_EXE_second");

fn second(words: &[&str]) -> Output {
    let run = Command::new(SECOND).args(words).output();
    run.expect("the program runs")
}

fn last_line(output: &Output) -> String {
    let text = String::from_utf8_lossy(&output.stdout).into_owned();
    text.lines().last().unwrap_or("").to_string()
}

#[test]
fn the_second_program_agrees_with_itself() {
    let cases = second(&["compare", "9", "300", "--", SECOND, "expect"]);
    assert_eq!(last_line(&cases), "300 passed, 0 failed");
    assert!(cases.status.success());
    let inputs = second(&["compare-answer", "9", "60", "--", SECOND, "answer"]);
    assert_eq!(last_line(&inputs), "60 passed, 0 failed");
    assert!(inputs.status.success());
}

/// `answer` prints one line for whatever comes; `expect` prints none for an input of `answer`.
#[test]
fn another_program_does_not() {
    let cases = second(&["compare", "9", "20", "--", SECOND, "answer"]);
    assert_eq!(last_line(&cases), "0 passed, 20 failed");
    assert_eq!(cases.status.code(), Some(1));
    let text = String::from_utf8_lossy(&cases.stdout).into_owned();
    let first = second(&["cases", "9", "1"]);
    assert!(text.contains(&*String::from_utf8_lossy(&first.stdout)));
    let inputs = second(&["compare-answer", "9", "3", "--", SECOND, "expect"]);
    assert_eq!(last_line(&inputs), "0 passed, 3 failed");
    assert_eq!(inputs.status.code(), Some(1));
}

#[test]
fn a_command_that_ends_early_or_says_too_much() {
    let early = second(&["compare", "9", "20", "--", SECOND, "cases", "9", "3"]);
    assert_eq!(last_line(&early), "0 passed, 20 failed");
    let much = second(&["compare", "9", "0", "--", SECOND, "cases", "9", "3"]);
    assert_eq!(last_line(&much), "0 passed, 1 failed");
}

#[test]
fn unknown_words() {
    let usage = second(&["compare", "9", "20"]);
    assert_eq!(usage.status.code(), Some(2));
    let missing = second(&["compare", "9", "20", "--", "./no-such-program"]);
    assert_eq!(missing.status.code(), Some(2));
}
