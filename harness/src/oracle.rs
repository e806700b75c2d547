//! Judges a port of twoway 0.1.8 against the original Rust and against a model of document 01.
//!
//!     oracle answer                     reads case lines, prints one answer line for each
//!     oracle list                       prints the case lines of the stored list
//!     oracle compare [--seed S] [--long]    model, Rust and meaning against each other
//!     oracle break                      shows that wrong models are caught
//!     oracle defined [--long]           prints what definitions should give, for the prover
//!     oracle judges                     prints who judges: with the original, or the model alone
//!     oracle missing                    prints the folders that were not there at the build
//!
//! The forms of the lines and of the answers stand in docs/LINES.md.
//!
//! Answers are the Rust's and the model's, which must be equal; counts are the model's and
//! those of a copy of the Rust with counters in it; refusals are the model's alone. Where they
//! differ, `oracle answer` prints a line that begins with DISAGREE to standard error and ends
//! with status 1.

use harness::compare::Run;
use harness::{broken, compare, judge, list, local, program};
use std::fmt::Display;
use std::io::{self, BufRead, Write};
use std::process::ExitCode;

const USAGE: &str = "oracle answer | list | compare [--seed S] [--long] | break | \
    defined [--long] | judges | missing";

fn main() -> ExitCode {
    let words: Vec<String> = std::env::args().skip(1).collect();
    let words: Vec<&str> = words.iter().map(String::as_str).collect();
    let outcome = match words[..] {
        ["answer"] => answer(),
        ["list"] => print(list::lines()),
        ["compare", ref options @ ..] => Ok(compare(options)),
        ["break"] => Ok(program::status(broken::all_caught())),
        ["defined"] => print(local::table(local::SHORT)),
        ["defined", "--long"] => print(local::table(local::LONG)),
        ["judges"] => print([judge::JUDGES]),
        ["missing"] => print(program::missing()),
        _ => Ok(program::usage(USAGE)),
    };
    outcome.unwrap_or_else(|error| {
        eprintln!("oracle: {error}");
        ExitCode::FAILURE
    })
}

fn answer() -> io::Result<ExitCode> {
    let mut input = io::stdin().lock();
    let mut output = io::BufWriter::new(io::stdout().lock());
    let mut text = Vec::new();
    while input.read_until(b'\n', &mut text)? > 0 {
        match judge::answer(text.strip_suffix(b"\n").unwrap_or(&text)) {
            Ok(reply) => writeln!(output, "{reply}")?,
            Err(why) => {
                output.flush()?;
                eprintln!("DISAGREE {why}");
                return Ok(ExitCode::FAILURE);
            }
        }
        text.clear();
    }
    output.flush()?;
    Ok(ExitCode::SUCCESS)
}

fn print<T: Display>(lines: impl IntoIterator<Item = T>) -> io::Result<ExitCode> {
    let mut output = io::BufWriter::new(io::stdout().lock());
    for line in lines {
        writeln!(output, "{line}")?;
    }
    output.flush()?;
    Ok(ExitCode::SUCCESS)
}

fn compare(options: &[&str]) -> ExitCode {
    let Some((seed, long)) = program::options(options) else {
        return program::usage(USAGE);
    };
    let size = if long { compare::LONG_RUN } else { compare::SHORT_RUN };
    let shown = compare::compare(seed, &size).map(|run| {
        let Run { cases, greatest, greatest_twice, .. } = run;
        let greatest = format!("{greatest}, and where n is at least 2m {greatest_twice}");
        format!("{cases} cases (greatest of an overlapping walk: {greatest})")
    });
    program::report("compare", seed, shown.map_err(|failure| failure.shown()))
}
