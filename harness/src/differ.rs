//! Holds the port against the original Rust.
//!
//!     differ [--seed S] [--long]                  the C functions
//!     differ walk PROGRAM [--seed S] [--long]     a program that answers case lines
//!
//! Both print one line: how many cases agree, or the smallest differing case that was found;
//! then the status is 1.

mod searches;
mod walks;

use harness::program;
use std::process::ExitCode;

const USAGE: &str = "differ [walk PROGRAM] [--seed S] [--long]";

fn main() -> ExitCode {
    let words: Vec<String> = std::env::args().skip(1).collect();
    let words: Vec<&str> = words.iter().map(String::as_str).collect();
    let (program, options) = match words[..] {
        ["walk", program, ref options @ ..] => (Some(program), options),
        ref options => (None, options),
    };
    let Some((seed, long)) = program::options(options) else {
        return program::usage(USAGE);
    };
    match program {
        Some(program) => program::report("differ walk", seed, walks::differ(program, seed, long)),
        None => program::report("differ", seed, searches::differ(seed, long)),
    }
}
