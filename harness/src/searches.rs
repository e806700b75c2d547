//! The C functions against the unchanged Rust, or the model, against the meaning, and against the answers
//! that stand in the documents.

use harness::case::{Case, Word};
use harness::examples;
use harness::exhaustive::{self, SCANNED};
use harness::failure::{Failure, Outcome};
use harness::fence::{self, Fence};
use harness::judge;
use harness::limits::NEEDLE_BOUND;
use harness::model::RULES;
use harness::naive;
use harness::port::{self, Found};
use harness::words::{self, Dice, Letters, ALPHABETS};

/// How far the exhaustive parts go (the longest needle and haystack), and how many seeded
/// inputs are tried.
struct Size {
    two_letters: (usize, usize),
    three_letters: (usize, usize),
    seeded: usize,
    edges: usize,
    large: usize,
}

const SHORT_RUN: Size = Size {
    two_letters: (7, 13),
    three_letters: (4, 9),
    seeded: 500_000,
    edges: 40_000,
    large: 500,
};

const LONG_RUN: Size = Size {
    two_letters: (8, 14),
    three_letters: (5, 9),
    seeded: 5_000_000,
    edges: 500_000,
    large: 10_000,
};

/// Counts the cases: one for each search in one direction.
struct Run {
    cases: u64,
}

/// The whole comparison: how many cases agree, or the smallest that does not.
pub fn differ(seed: u64, long: bool) -> Result<String, String> {
    let size = if long { LONG_RUN } else { SHORT_RUN };
    let mut run = Run { cases: 0 };
    fence::report();
    let outcome = run.all(&size, &mut Dice::new(seed));
    let outcome = outcome.map_err(|failure| failure.smallest(verdict));
    // Too large to be made smaller step by step.
    let outcome = outcome.and_then(|()| run.hard());
    let outcome = outcome
        .and_then(|()| examples::bounds().try_for_each(|(case, said)| run.example(case, said)));
    outcome.map(|()| format!("{} cases", run.cases)).map_err(|failure| failure.shown())
}

/// What the rules ask for: a refusal, or what the unchanged Rust answers (the model, if that is
/// not at hand), which must be what is meant.
fn wanted(needle: &[u8], haystack: &[u8], backward: bool) -> Result<Found, String> {
    if let Some(number) = RULES.refusal_of_search(needle.len(), haystack.len()) {
        return Ok(Found::Refused(number));
    }
    let found = judge::found(needle, haystack, backward);
    let meant = naive::meant(needle, haystack, backward);
    if found == meant {
        Ok(found.map_or(Found::Nothing, Found::At))
    } else {
        Err(format!("{}: {found:?} | meant: {meant:?}", judge::JUDGES))
    }
}

fn agree(given: Found, wanted: Found) -> Result<(), String> {
    if given == wanted {
        Ok(())
    } else {
        Err(format!("C: {given:?} | wanted: {wanted:?}"))
    }
}

/// One search, with the pointer that is passed for an empty slice.
fn judged(needle: &[u8], haystack: &[u8], backward: bool, empty: *const u8) -> Result<(), String> {
    let given = port::search(backward, haystack, needle, empty);
    agree(given, wanted(needle, haystack, backward)?)
}

fn verdict(case: &Case) -> Result<(), String> {
    match case {
        Case::Search { needle, haystack, backward } => {
            judged(needle, haystack, *backward, std::ptr::dangling())
        }
        _ => Ok(()),
    }
}

impl Run {
    fn all(&mut self, size: &Size, dice: &mut Dice) -> Outcome {
        examples::table().try_for_each(|(case, said)| self.example(case, said))?;
        self.pairs((b"ab", size.two_letters.0), (b"ab", size.two_letters.1))?;
        self.pairs((b"abc", size.three_letters.0), (b"abc", size.three_letters.1))?;
        self.pairs(words::ALIKE.0, words::ALIKE.1)?;
        self.empty()?;
        self.scans()?;
        for _ in 0..size.edges {
            self.edges(dice)?;
        }
        words::sizes(size.seeded, size.large).try_for_each(|(needle_max, haystack_max)| {
            let (needle, haystack) = words::pair(dice, needle_max, haystack_max);
            self.both(&needle, &haystack)
        })
    }

    fn one(&mut self, needle: &[u8], haystack: &[u8], backward: bool, empty: *const u8) -> Outcome {
        self.cases += 1;
        judged(needle, haystack, backward, empty).map_err(|why| {
            let (needle, haystack) = (needle.to_vec(), haystack.to_vec());
            Failure::new(Case::Search { needle, haystack, backward }, why)
        })
    }

    fn both(&mut self, needle: &[u8], haystack: &[u8]) -> Outcome {
        self.one(needle, haystack, false, std::ptr::dangling())?;
        self.one(needle, haystack, true, std::ptr::dangling())
    }

    fn pairs(&mut self, needles: Letters, haystacks: Letters) -> Outcome {
        words::pairs(needles, haystacks)
            .try_for_each(|(needle, haystack)| self.both(&needle, &haystack))
    }

    /// A case of the documents, if it is a search: also against what they say, whose first word
    /// is the place.
    fn example(&mut self, case: Case, said: &str) -> Outcome {
        let Case::Search { needle, haystack, backward } = &case else {
            return Ok(());
        };
        self.one(needle, haystack, *backward, std::ptr::dangling())?;
        let place = said.split(' ').next().expect("an answer has a first word");
        let given = match port::search(*backward, haystack, needle, std::ptr::dangling()) {
            Found::At(position) => format!("at:{position}"),
            Found::Nothing => "none".to_string(),
            Found::Refused(number) => format!("ref:{number}"),
        };
        if given == place {
            return Ok(());
        }
        Err(Failure::new(case, format!("C: {given} | documents: {place}")))
    }

    /// Empty slices with pointers that must not be read: null, misplaced ones, and one behind
    /// the end of an array.
    fn empty(&mut self) -> Outcome {
        let behind: *const u8 = b"ab".as_ptr_range().end;
        let pointers = [0, 1, 4095, usize::MAX].map(std::ptr::without_provenance);
        for empty in pointers.into_iter().chain([behind]) {
            for backward in [false, true] {
                for word in words::up_to(b"ab", 4) {
                    self.one(&word, b"", backward, empty)?;
                    self.one(b"", &word, backward, empty)?;
                }
            }
        }
        Ok(())
    }

    /// One byte in short texts at both edges of memory that can be read, and up to 63 bytes away
    /// from them, so at every alignment. All around a text is the byte searched for.
    fn scans(&mut self) -> Outcome {
        let mut fence = Fence::new();
        for last in [false, true] {
            for away in 0..64 {
                let byte: u8 = [0x00, 0x61, 0x80, 0xff][away % 4];
                for length in 0..=SCANNED {
                    fence.part(length + 2 * away, 0, last).fill(byte);
                    self.scan(byte, fence.part(length, away, last))?;
                }
            }
        }
        Ok(())
    }

    /// One byte in a text: nowhere, and wherever it can stand once or twice.
    fn scan(&mut self, byte: u8, text: &mut [u8]) -> Outcome {
        // Bytes that differ from it in one bit, or by one, are easily taken for it.
        let others = [byte ^ 0x01, byte ^ 0x80, byte.wrapping_add(1), byte ^ 0xff];
        let other = |place: usize| others[place % 4];
        (0..text.len()).for_each(|place| text[place] = other(place));
        for hits in exhaustive::hits(text.len()) {
            let hits = hits.iter().flatten();
            hits.clone().for_each(|&hit| text[hit] = byte);
            self.both(&[byte], text)?;
            hits.for_each(|&hit| text[hit] = other(hit));
        }
        Ok(())
    }

    /// A needle in texts that are about as long as it is, or about twice as long, and at the
    /// very start and end of one.
    fn edges(&mut self, dice: &mut Dice) -> Outcome {
        let letters = dice.pick(&ALPHABETS);
        let m = dice.between(1, 70);
        let needle = words::structured(dice, letters, m);
        for n in [0, 1, 2, m - 1, m, m + 1, 2 * m - 1, 2 * m, 2 * m + 1, 3 * m] {
            let haystack = words::around(dice, &needle, letters, n);
            self.both(&needle, &haystack)?;
        }
        let rest = words::around(dice, &needle, letters, 2 * m);
        self.both(&needle, &[&needle[..], &rest].concat())?;
        self.both(&needle, &[&rest, &needle[..]].concat())?;
        self.both(&needle, &[&rest, &needle[..m - 1]].concat())?;
        self.both(&needle, &[&needle[1..], &rest].concat())
    }

    /// Needles that are worst for one searcher or another, to the bound, in haystacks that
    /// nearly hold them twice.
    fn hard(&mut self) -> Outcome {
        for len in [1024, 4096, NEEDLE_BOUND - 1, NEEDLE_BOUND] {
            for needle in words::hard(len) {
                let haystack: Word = [&needle[1..], &needle[..], &needle[..len - 1]].concat();
                self.both(&needle, &haystack)?;
                self.both(&needle, &haystack[..2 * len - 2])?;
            }
        }
        Ok(())
    }
}
