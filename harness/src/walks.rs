//! A program that answers case lines, against the oracle's own answers.

use harness::case::Case;
use harness::exhaustive;
use harness::failure::{brief, Failure};
use harness::judge;
use harness::line;
use harness::list;
use harness::words::Dice;
use std::cell::Cell;
use std::io::{self, Write};
use std::process::{Command, Stdio};

/// How often the program is run to make a line smaller.
const TRIES: usize = 3_000;

const SHORT_RUN: usize = 250;
const LONG_RUN: usize = 2_000;
const AT_A_TIME: usize = 20_000;

/// Runs the program on one batch of lines after the other: how many lines agree, or the
/// smallest that does not.
pub fn differ(program: &str, seed: u64, long: bool) -> Result<String, String> {
    let batches = if long { LONG_RUN } else { SHORT_RUN };
    let mut dice = Dice::new(seed);
    let mut lines = held(program, b"")?;
    for _ in 0..batches {
        let end: &[u8] = if dice.between(0, 3) > 0 { b"\n" } else { b"\r\n" };
        let mut input = list::batch(dice.roll()).join(end);
        // The last line may end with the input.
        if dice.between(0, 3) > 0 {
            input.extend(end);
        }
        lines += held(program, &input)?;
    }
    lines += every(program, exhaustive::scans())?;
    if long {
        lines += every(program, exhaustive::cases())?;
    }
    Ok(format!(
        "{lines} lines in {batches} batches{}",
        if long { ", every small case among them" } else { "" }
    ))
}

/// All of the cases, so many lines at a time.
fn every(program: &str, cases: impl Iterator<Item = Case>) -> Result<usize, String> {
    let mut cases = cases.peekable();
    let mut count = 0;
    while cases.peek().is_some() {
        let some = cases.by_ref().take(AT_A_TIME).map(|case| line::show_case(&case) + "\n");
        count += held(program, some.collect::<String>().as_bytes())?;
    }
    Ok(count)
}

/// Behind the last newline an empty rest is no line.
fn lines(text: &[u8]) -> impl Iterator<Item = &[u8]> {
    text.split_inclusive(|&byte| byte == b'\n').map(|line| line.strip_suffix(b"\n").unwrap_or(line))
}

/// The number of lines in the input, if each has the answer that it should have.
fn held(program: &str, input: &[u8]) -> Result<usize, String> {
    let given = answers(program, input)?;
    let mut given = lines(&given);
    let mut number = 0;
    for asked in lines(input) {
        number += 1;
        agree(asked, given.next()).map_err(|why| smallest(program, asked, why))?;
    }
    match given.next() {
        Some(more) => Err(format!("{number} lines, and an answer more: {}", shown(more))),
        None => Ok(number),
    }
}

fn agree(asked: &[u8], given: Option<&[u8]>) -> Result<(), String> {
    let wanted = judge::answer(asked).map_err(|why| format!("the oracle disagrees: {why}"))?;
    if given == Some(wanted.as_bytes()) {
        return Ok(());
    }
    let given = given.map_or("no answer".to_string(), shown);
    Err(format!("given: {given} | wanted: {}", brief(&wanted)))
}

/// The line made smaller, if it is a case that has a wrong answer by itself too.
fn smallest(program: &str, asked: &[u8], why: String) -> String {
    let tries = Cell::new(0);
    let alone = |case: &Case| {
        tries.set(tries.get() + 1);
        if tries.get() > TRIES {
            return Ok(());
        }
        held_alone(program, line::show_case(case).as_bytes())
    };
    match line::parse(asked) {
        Some(case) if alone(&case).is_err() => Failure::new(case, why).smallest(alone).shown(),
        _ => format!("{} | {why}", shown(asked)),
    }
}

fn held_alone(program: &str, asked: &[u8]) -> Result<(), String> {
    let given = answers(program, asked)?;
    let first = lines(&given).next();
    agree(asked, first)
}

fn shown(line: &[u8]) -> String {
    brief(&line.escape_ascii().to_string())
}

/// What the program prints; it must end with status 0.
fn answers(program: &str, input: &[u8]) -> Result<Vec<u8>, String> {
    let output = run(program, input).map_err(|error| format!("{program}: {error}"))?;
    if output.status.success() {
        Ok(output.stdout)
    } else {
        Err(format!("{program}: {}", output.status))
    }
}

fn run(program: &str, input: &[u8]) -> io::Result<std::process::Output> {
    let mut child = Command::new(program).stdin(Stdio::piped()).stdout(Stdio::piped()).spawn()?;
    let mut pipe = child.stdin.take().expect("standard input is piped");
    // Writing goes on while the answers are read. A program that stops reading is seen by
    // the answers that are missing.
    std::thread::scope(|scope| {
        scope.spawn(move || pipe.write_all(input));
        child.wait_with_output()
    })
}
