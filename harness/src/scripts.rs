//! Scripts for walks.

use crate::case::*;
use crate::model::RULES;
use crate::words::{self, Dice};

/// Every script of 1 to `longest` calls, the shortest first.
pub fn every(longest: usize) -> impl Iterator<Item = Vec<Call>> {
    let places = words::up_to(&[0, 1, 2, 3], longest).skip(1);
    places.map(|word| word.iter().map(|&place| Call::ALL[usize::from(place)]).collect())
}

/// A seeded script; both ends included.
pub fn any(dice: &mut Dice, shortest: usize, longest: usize) -> Vec<Call> {
    (0..dice.between(shortest, longest)).map(|_| dice.pick(&Call::ALL)).collect()
}

/// The calls of `round` again and again until none of them has anything left, and then once
/// more, to see that the end stays the end.
pub fn whole(needle: &[u8], haystack: &[u8], mode: Mode, round: &[Call]) -> Vec<Call> {
    let mut script = round.to_vec();
    let (mut state, _) = RULES.prepare(needle, haystack.len(), mode);
    // A call that has something left moves by a byte at least, or gives an empty match once at
    // each place, so this ends by itself; the bound keeps a mistake in the model from running on.
    for _ in 0..2 * (haystack.len() + 1) {
        let mut over = true;
        for &call in round {
            let called = RULES.call(call, needle, haystack, state);
            over &= matches!(called.answer, Answer::Done | Answer::None | Answer::Refused(_));
            state = called.state;
        }
        script.extend(round);
        if over {
            break;
        }
    }
    script
}

/// For overlapping walks: one match each way, behind which cursors and memories show; all of them
/// one way; and both ways with steps in between, which are refused.
pub fn overlapping(needle: &[u8], haystack: &[u8]) -> [Vec<Call>; 4] {
    use Call::*;
    let whole = |round: &[Call]| whole(needle, haystack, Mode::Overlapping, round);
    let mixed = [Next, NextBack, Step, StepBack];
    [vec![Next, NextBack], whole(&[Next]), whole(&[NextBack]), whole(&mixed)]
}
