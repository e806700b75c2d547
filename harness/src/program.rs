//! The options of the programs, and how they end.

use crate::judge;
use std::process::ExitCode;

/// Where the original and the crate memchr were looked for, if they were not there.
pub const NO_ORIGINAL: Option<&str> = option_env!("NO_TWOWAY_SRC");
pub const NO_MEMCHR: Option<&str> = option_env!("NO_MEMCHR_SRC");

/// The paper's year.
pub const SEED: u64 = 1991;

/// `[--seed S] [--long]`: the seed and whether the run is long. None for anything else.
pub fn options(words: &[&str]) -> Option<(u64, bool)> {
    match words {
        [] => Some((SEED, false)),
        ["--long", rest @ ..] => Some((options(rest)?.0, true)),
        ["--seed", seed, rest @ ..] => Some((seed.parse().ok()?, options(rest)?.1)),
        _ => None,
    }
}

pub fn usage(text: &str) -> ExitCode {
    eprintln!("{text}");
    ExitCode::from(2)
}

pub fn status(good: bool) -> ExitCode {
    if good {
        ExitCode::SUCCESS
    } else {
        ExitCode::FAILURE
    }
}

/// The folders that were looked for when this was built and were not there: the original's, and
/// that of the crate memchr.
pub fn missing() -> impl Iterator<Item = &'static str> {
    [NO_ORIGINAL, NO_MEMCHR].into_iter().flatten()
}

/// Prints a run's one line: how many agreed, or the difference.
pub fn report(name: &str, seed: u64, outcome: Result<String, String>) -> ExitCode {
    match &outcome {
        Ok(agreed) => println!("{name}: {agreed} agree (seed {seed}; judged by {})", judge::JUDGES),
        Err(difference) => println!("{name}: DIFFERENCE {difference}"),
    }
    status(outcome.is_ok())
}
