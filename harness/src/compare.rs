//! Model, Rust and meaning against each other, on all small inputs and on seeded larger ones.

use crate::case::*;
use crate::examples;
use crate::exhaustive;
use crate::failure::{Failure, Outcome};
use crate::judge::judge;
use crate::limits::{NEEDLE_BOUND, SCRIPT_LETTERS, STATE_DOES_NOT_FIT};
use crate::line;
use crate::local;
use crate::meaning;
use crate::model::{Model, RULES};
use crate::naive;
use crate::original;
use crate::retold::EmptyNeedle;
use crate::scripts;
use crate::states;
use crate::words::{self, Dice, Letters};
use std::fmt;

/// Counts the cases tried on one model.
pub struct Run<'a> {
    model: &'a Model,
    pub cases: u64,
    pub greatest: Share,
    pub greatest_twice: Share,
}

/// The comparisons of an overlapping walk one way, beside the 2n-m that demand 3 allows. The
/// greatest share is kept of all such walks, and of those where n is at least 2m: where n is m, a
/// match alone takes all that is allowed.
#[derive(Clone, Copy, Default)]
pub struct Share {
    comparisons: u64,
    bound: u64,
}

impl fmt::Display for Share {
    fn fmt(&self, to: &mut fmt::Formatter) -> fmt::Result {
        write!(to, "{} of 2n-m = {}", self.comparisons, self.bound)
    }
}

impl Share {
    /// The greater one; of equal ones that of the longer walk.
    fn or(self, other: Share) -> Share {
        let key = |one: Share, beside: Share| (one.comparisons * beside.bound, one.bound);
        if key(other, self) > key(self, other) {
            other
        } else {
            self
        }
    }
}

/// How far the exhaustive parts go and how many seeded inputs are tried.
pub struct Size {
    two_letters: usize,
    three_letters: usize,
    needle: usize,
    haystack: usize,
    state_needle: usize,
    local: local::Sizes,
    seeded: usize,
    large: usize,
}

/// For `cargo test`.
pub const QUICK_RUN: Size = Size {
    two_letters: 8,
    three_letters: 5,
    needle: 4,
    haystack: 7,
    state_needle: 2,
    local: local::SHORT,
    seeded: 1_000,
    large: 5,
};

pub const SHORT_RUN: Size = Size {
    two_letters: 12,
    three_letters: 8,
    needle: 6,
    haystack: 10,
    state_needle: 3,
    local: local::LONG,
    seeded: 40_000,
    large: 60,
};

pub const LONG_RUN: Size = Size {
    two_letters: 15,
    three_letters: 10,
    needle: 8,
    haystack: 12,
    state_needle: 4,
    local: local::sizes(14, 8),
    seeded: 2_000_000,
    large: 2_000,
};

/// The whole comparison.
pub fn compare(seed: u64, size: &Size) -> Result<Run<'static>, Failure> {
    let mut run = Run::new(&RULES);
    // These are small already, or too large to be made smaller step by step.
    run.examples()?;
    run.bounds()?;
    run.longest_needles()?;
    let outcome = run.all(size, &mut Dice::new(seed));
    outcome.map_err(|failure| failure.smallest(|case| verdict(run.model, case).map(drop)))?;
    Ok(run)
}

fn verdict(model: &Model, case: &Case) -> Result<Reply, String> {
    let reply = judge(model, case)?;
    meaning::check(case, &reply)?;
    Ok(reply)
}

/// The walk of each call, and walks that change direction.
fn whole_walks(needle: &[u8], haystack: &[u8]) -> [Vec<Call>; 7] {
    use Call::*;
    let rounds: [&[Call]; 7] = [
        &[Step],
        &[StepBack],
        &[Next],
        &[NextBack],
        &[Step, StepBack],
        &[Next, StepBack],
        &[Step, NextBack],
    ];
    rounds.map(|round| scripts::whole(needle, haystack, Mode::NonOverlapping, round))
}

impl<'a> Run<'a> {
    pub fn new(model: &'a Model) -> Run<'a> {
        let (greatest, greatest_twice) = Default::default();
        Run { model, cases: 0, greatest, greatest_twice }
    }

    fn all(&mut self, size: &Size, dice: &mut Dice) -> Outcome {
        self.suffixes(b"ab", size.two_letters)?;
        self.suffixes(b"abc", size.three_letters)?;
        self.pairs((b"ab", size.needle), (b"ab", size.haystack))?;
        self.overlapping((b"ab", size.needle), size.haystack + 1)?;
        // A third letter lets the fingerprint say no; the others let it say yes falsely.
        self.pairs((b"ab", 4), (b"abc", 7))?;
        self.pairs(words::ALIKE.0, words::ALIKE.1)?;
        exhaustive::scans().try_for_each(|case| self.check(case))?;
        self.handed_in(size.state_needle)?;
        self.local_periods(size.local)?;
        self.told_again()?;
        self.empty_needle()?;
        self.empty_seeded(dice, size.large)?;
        words::sizes(size.seeded, size.large).try_for_each(|(m, n)| self.seeded(dice, m, n))
    }

    /// The part that `oracle break` runs on wrong models.
    pub fn small(&mut self) -> Outcome {
        self.suffixes(b"ab", 6)?;
        self.pairs((b"ab", 3), (b"abc", 5))?;
        self.pairs((b"ab", 5), (b"ab", 7))?;
        self.empty_needle()?;
        self.local_periods(local::sizes(4, 3))?;
        self.examples()?;
        self.bounds()
    }

    fn check(&mut self, case: Case) -> Outcome {
        self.cases += 1;
        match verdict(self.model, &case) {
            Ok(reply) => self.keep_shares(&case, &reply),
            Err(why) => return Err(Failure::new(case, why)),
        }
        Ok(())
    }

    /// Those of an overlapping walk, if its needle has bytes and room.
    fn keep_shares(&mut self, case: &Case, reply: &Reply) {
        let (Case::Walk { script, .. }, Reply::Walked { calls, state, .. }) = (case, reply) else {
            return;
        };
        let &State { m, n, mode, .. } = state;
        if mode == Mode::Overlapping && (1..=n).contains(&m) {
            for backward in [false, true] {
                let comparisons = meaning::total(script, calls, backward).comparisons;
                let share = Share { comparisons, bound: (2 * n - m) as u64 };
                self.greatest = self.greatest.or(share);
                if n >= 2 * m {
                    self.greatest_twice = self.greatest_twice.or(share);
                }
            }
        }
    }

    fn example(&mut self, case: Case, wanted: &str) -> Outcome {
        self.cases += 1;
        examples::check(self.model, &case, wanted).map_err(|why| Failure::new(case, why))
    }

    fn examples(&mut self) -> Outcome {
        examples::table().try_for_each(|(case, wanted)| self.example(case, wanted))
    }

    fn bounds(&mut self) -> Outcome {
        examples::bounds().try_for_each(|(case, wanted)| self.example(case, wanted))
    }

    fn suffixes(&mut self, letters: &[u8], longest: usize) -> Outcome {
        for word in words::up_to(letters, longest) {
            for greater in [false, true] {
                self.check(Case::Suffix { word: word.clone(), greater })?;
                for known in 0..=word.len() + 1 {
                    self.check(Case::ReverseSuffix { word: word.clone(), known, greater })?;
                }
            }
            self.prepares(&word, 7)?;
        }
        Ok(())
    }

    /// At every split of each word; a case a split.
    fn local_periods(&mut self, sizes: local::Sizes) -> Outcome {
        for (letters, longest) in sizes {
            for word in local::words((letters, longest)) {
                self.cases += word.len() as u64 + 1;
                local::check(self.model, letters, &word).map_err(|why| {
                    let (n, mode) = (word.len(), Mode::NonOverlapping);
                    Failure::new(Case::Prepare { needle: word.clone(), n, mode }, why)
                })?;
            }
        }
        Ok(())
    }

    fn prepares(&mut self, needle: &[u8], n: usize) -> Outcome {
        let prepare = |mode| Case::Prepare { needle: needle.to_vec(), n, mode };
        Mode::ALL.into_iter().try_for_each(|mode| self.check(prepare(mode)))
    }

    fn pairs(&mut self, needles: Letters, haystacks: Letters) -> Outcome {
        for (needle, haystack) in words::pairs(needles, haystacks) {
            self.pair(&needle, &haystack)?;
        }
        Ok(())
    }

    /// Overlapping walks, in all haystacks over the needles' letters of one length.
    fn overlapping(&mut self, needles: Letters, n: usize) -> Outcome {
        for needle in words::up_to(needles.0, needles.1) {
            for haystack in words::all(needles.0, n) {
                self.overlapping_walks(&needle, &haystack)?;
            }
        }
        Ok(())
    }

    /// Both searches, and walks in both modes.
    fn pair(&mut self, needle: &[u8], haystack: &[u8]) -> Outcome {
        self.searches(needle, haystack)?;
        for script in whole_walks(needle, haystack) {
            self.walk(needle, haystack, Mode::NonOverlapping, script)?;
        }
        self.overlapping_walks(needle, haystack)
    }

    fn overlapping_walks(&mut self, needle: &[u8], haystack: &[u8]) -> Outcome {
        for script in scripts::overlapping(needle, haystack) {
            self.walk(needle, haystack, Mode::Overlapping, script)?;
        }
        Ok(())
    }

    fn walk(&mut self, needle: &[u8], haystack: &[u8], mode: Mode, script: Vec<Call>) -> Outcome {
        let (needle, haystack) = (needle.to_vec(), haystack.to_vec());
        self.check(Case::Walk { needle, haystack, mode, script })
    }

    /// A script that belongs to no mode.
    fn in_both_modes(&mut self, needle: &[u8], haystack: &[u8], script: &[Call]) -> Outcome {
        let mut modes = Mode::ALL.into_iter();
        modes.try_for_each(|mode| self.walk(needle, haystack, mode, script.to_vec()))
    }

    /// Needles at their bound, in haystacks that nearly hold them twice.
    fn longest_needles(&mut self) -> Outcome {
        for needle in words::hard(NEEDLE_BOUND) {
            let haystack = [&needle[1..], &needle[..]].concat();
            self.splits(&needle, naive::smallest_period(&needle), haystack.len())?;
            self.searches(&needle, &haystack)?;
            let script = [Call::Next, Call::NextBack].repeat(3);
            self.walk(&needle, &haystack, Mode::Overlapping, script)?;
        }
        Ok(())
    }

    /// Both passes in both orders, and preparing.
    fn splits(&mut self, word: &[u8], known: usize, n: usize) -> Outcome {
        for greater in [false, true] {
            self.check(Case::Suffix { word: word.to_vec(), greater })?;
            self.check(Case::ReverseSuffix { word: word.to_vec(), known, greater })?;
        }
        self.prepares(word, n)
    }

    fn searches(&mut self, needle: &[u8], haystack: &[u8]) -> Outcome {
        for backward in [false, true] {
            let (needle, haystack) = (needle.to_vec(), haystack.to_vec());
            self.check(Case::Search { needle, haystack, backward })?;
        }
        Ok(())
    }

    /// Every fitting state of small lengths, whatever bytes it may have been prepared for, and
    /// prepared ones with one number changed.
    fn handed_in(&mut self, longest: usize) -> Outcome {
        for needle in words::up_to(b"ab", longest).filter(|needle| !needle.is_empty()) {
            for haystack in words::up_to(b"ab", 5) {
                for set in [0, 1 << 33, u64::MAX] {
                    for state in states::all_fitting(needle.len(), haystack.len(), set) {
                        self.calls(&needle, &haystack, state)?;
                    }
                }
                for mode in Mode::ALL {
                    let (state, _) = RULES.prepare(&needle, haystack.len(), mode);
                    let changed = states::with_one_change(&state);
                    let mut changed = changed.into_iter();
                    changed.try_for_each(|state| self.each_call(&needle, &haystack, state))?;
                }
            }
        }
        Ok(())
    }

    /// Every small walk of an empty needle, and calls with states that are known to fit or not to.
    fn empty_needle(&mut self) -> Outcome {
        for mode in Mode::ALL {
            exhaustive::empty_walks(mode).try_for_each(|case| self.check(case))?;
        }
        exhaustive::empty_calls().try_for_each(|(case, fits)| self.fitted(case, fits))
    }

    /// `EmptyNeedle` told again against the original's own, if that is at hand: without anything put
    /// back behind Done.
    fn told_again(&mut self) -> Outcome {
        for case in exhaustive::empty_walks(Mode::NonOverlapping) {
            let Case::Walk { haystack, script, .. } = &case else { continue };
            let Some(own) = original::empty_walk(haystack, script) else { continue };
            let mut searcher = EmptyNeedle::new(haystack.len());
            let told = script.iter().map(|&call| searcher.called(call, haystack));
            if !own.iter().copied().eq(told) {
                return Err(Failure::new(case, format!("not as it is told again: {own:?}")));
            }
            self.cases += 1;
        }
        Ok(())
    }

    /// `fits` is known from how the state was made, not by 01's conditions.
    fn fitted(&mut self, case: Case, fits: bool) -> Outcome {
        let reply = self.model.reply(&case);
        let refused = match (&case, &reply) {
            (Case::Call { state: before, .. }, Reply::Called(Called { answer, state, counts })) => {
                *answer == Answer::Refused(STATE_DOES_NOT_FIT)
                    && state == before
                    && *counts == Counts::default()
            }
            _ => false,
        };
        if refused == fits {
            let why = format!("model: {} | fits: {fits}", line::show_reply(&reply));
            return Err(Failure::new(case, why));
        }
        self.check(case)
    }

    /// All that can be asked of an empty needle in haystacks about some limits, with so many
    /// seeded scripts and states for each.
    fn empty_seeded(&mut self, dice: &mut Dice, number: usize) -> Outcome {
        for n in words::EDGES {
            let haystack = words::random(dice, words::ALPHABETS[2], n);
            self.pair(b"", &haystack)?;
            self.prepares(b"", n)?;
            for _ in 0..number {
                let script = scripts::any(dice, 1, SCRIPT_LETTERS);
                self.in_both_modes(b"", &haystack, &script)?;
                let state = states::any_fitting(dice, 0, n, Mode::NonOverlapping, 0);
                for mode in Mode::ALL {
                    self.each_call(b"", &haystack, State { mode, ..state })?;
                }
            }
        }
        Ok(())
    }

    fn each_call(&mut self, needle: &[u8], haystack: &[u8], state: State) -> Outcome {
        for call in Call::ALL {
            let (needle, haystack) = (needle.to_vec(), haystack.to_vec());
            self.check(Case::Call { call, needle, haystack, state })?;
        }
        Ok(())
    }

    fn calls(&mut self, needle: &[u8], haystack: &[u8], state: State) -> Outcome {
        self.each_call(needle, haystack, state)?;
        let both_ways = match state.mode {
            Mode::NonOverlapping => [Call::Step, Call::StepBack],
            Mode::Overlapping => [Call::Next, Call::NextBack],
        };
        both_ways.iter().try_for_each(|&call| self.walk_bounds(call, needle, haystack, state))
    }

    /// Demand 3 for the whole walk that starts in a handed-in state: its bounds need no
    /// premise on the bytes.
    fn walk_bounds(&self, call: Call, needle: &[u8], haystack: &[u8], first: State) -> Outcome {
        let mut total = Counts::default();
        let mut state = first;
        // A step that is not Done moves by a byte at least, and so does a match.
        for _ in 0..haystack.len() {
            let called = self.model.call(call, needle, haystack, state);
            total += called.counts;
            state = called.state;
        }
        if meaning::within(&total, needle.len(), meaning::left(call, &first)) {
            return Ok(());
        }
        let (needle, haystack) = (needle.to_vec(), haystack.to_vec());
        let case = Case::Call { call, needle, haystack, state: first };
        Err(Failure::new(case, format!("the walk from here makes {total:?}")))
    }

    /// One seeded needle and haystack, with all that can be asked of them.
    fn seeded(&mut self, dice: &mut Dice, needle_max: usize, haystack_max: usize) -> Outcome {
        let (needle, haystack) = words::pair(dice, needle_max, haystack_max);
        let (m, n) = (needle.len(), haystack.len());
        let any = dice.between(0, m + 1);
        let known = dice.pick(&[naive::smallest_period(&needle), any]);
        self.splits(&needle, known, n)?;
        self.pair(&needle, &haystack)?;
        let script = scripts::any(dice, 1, 40);
        self.in_both_modes(&needle, &haystack, &script)?;
        let any = dice.roll();
        let set = dice.pick(&[RULES.split(&needle).0.set, u64::MAX, any]);
        let state = states::any_fitting(dice, m, n, Mode::NonOverlapping, set);
        let mut modes = Mode::ALL.into_iter();
        modes.try_for_each(|mode| self.calls(&needle, &haystack, State { mode, ..state }))
    }
}
