//! Every small case, so that nothing small is left to chance.

use crate::case::*;
use crate::scripts;
use crate::states;
use crate::words;

const AB: &[u8] = b"ab";
const ABC: &[u8] = b"abc";

/// Both maximal suffix calls on all words over 2 letters up to 12 and over 3 up to 8, in both
/// orders, with every known period from 0 to one more than the word has letters.
fn suffixes() -> impl Iterator<Item = Case> {
    let all = words::up_to(AB, 12).chain(words::up_to(ABC, 8));
    all.flat_map(|word| {
        let both = [false, true].into_iter();
        both.flat_map(|greater| {
            let forward = Case::Suffix { word: word.clone(), greater };
            let known = (0..=word.len() + 1).map(|known| Case::ReverseSuffix {
                word: word.clone(),
                known,
                greater,
            });
            std::iter::once(forward).chain(known).collect::<Vec<_>>()
        })
        .collect::<Vec<_>>()
    })
}

/// Walks to the end in both directions by steps and by matches, a mix of all four, overlapping
/// walks, and both searches, for all pairs over 2 letters: needles up to 6, haystacks up to 10.
fn walks() -> impl Iterator<Item = Case> {
    words::pairs((AB, 6), (AB, 10)).flat_map(|(needle, haystack)| {
        let rounds: [&[Call]; 5] = [
            &[Call::Step],
            &[Call::StepBack],
            &[Call::Next],
            &[Call::NextBack],
            &[Call::Step, Call::NextBack, Call::StepBack, Call::Next],
        ];
        let walk = |mode, script| {
            let (needle, haystack) = (needle.clone(), haystack.clone());
            Case::Walk { needle, haystack, mode, script }
        };
        let mut cases: Vec<Case> = Vec::new();
        for round in rounds {
            let mode = Mode::NonOverlapping;
            cases.push(walk(mode, scripts::whole(&needle, &haystack, mode, round)));
        }
        for script in scripts::overlapping(&needle, &haystack) {
            cases.push(walk(Mode::Overlapping, script));
        }
        for backward in [false, true] {
            let (needle, haystack) = (needle.clone(), haystack.clone());
            cases.push(Case::Search { needle, haystack, backward });
        }
        cases
    })
}

/// Every call from every fitting state, and from each with one number changed, for needles of
/// 1 to 3 letters in haystacks of up to 4.
fn handed_in() -> impl Iterator<Item = Case> {
    words::pairs((AB, 3), (AB, 4)).filter(|pair| !pair.0.is_empty()).flat_map(
        |(needle, haystack)| {
            // a's bit and b's bit
            let fitting = states::all_fitting(needle.len(), haystack.len(), 6 << 32);
            fitting
                .flat_map(|state| {
                    let changed = states::with_one_change(&state);
                    // Changed ones of a few states are enough: they differ in the number changed.
                    let some = state.position == 0 && state.end == state.n;
                    std::iter::once(state).chain(changed.into_iter().filter(move |_| some))
                })
                .flat_map(|state| {
                    Call::ALL.map(|call| {
                        let (needle, haystack) = (needle.clone(), haystack.clone());
                        Case::Call { call, needle, haystack, state }
                    })
                })
                .collect::<Vec<_>>()
        },
    )
}

/// Every script of up to 6 calls over an empty needle, in haystacks of up to 6 letters.
pub fn empty_walks(mode: Mode) -> impl Iterator<Item = Case> {
    (0..=6).flat_map(move |n| {
        let walk = move |script| {
            let (needle, haystack) = (Vec::new(), words::power(AB, n));
            Case::Walk { needle, haystack, mode, script }
        };
        scripts::every(6).map(walk)
    })
}

/// States of walks whose needle has bytes, also where they name an empty one; the states at the
/// start, for no byte too, with one number changed.
fn two_way(n: usize) -> impl Iterator<Item = State> {
    let fitting = (1..=2).flat_map(move |m| states::all_fitting(m, n, 0));
    let in_modes = move |m| Mode::ALL.map(|mode| states::at_start(m, n, mode));
    let starts = (0..=2).flat_map(in_modes);
    let changed = starts.clone().flat_map(|state| states::with_one_change(&state));
    fitting.flat_map(|state| [state, State { m: 0, ..state }]).chain(starts).chain(changed)
}

/// Every call with every state of an empty needle's walk in haystacks of up to 4 letters and with
/// each of these with one number changed, over an empty needle and over one of one letter; and
/// with states of the other kind over an empty needle. With each whether its state fits.
pub fn empty_calls() -> impl Iterator<Item = (Case, bool)> {
    (0..=4).flat_map(|n| {
        let fitting: Vec<State> = states::all_fitting(0, n, 0).collect();
        let changed = fitting.iter().flat_map(states::with_one_change);
        let empty: Vec<State> = fitting.iter().copied().chain(changed).collect();
        let blank = empty.iter().map(|&state| (Word::new(), state, fitting.contains(&state)));
        let letter = empty.iter().map(|&state| (b"a".to_vec(), state, false));
        let other = two_way(n).map(|state| (Word::new(), state, false));
        let all = blank.chain(letter).chain(other);
        all.flat_map(|(needle, state, fits)| {
            Call::ALL.map(|call| {
                let (needle, haystack) = (needle.clone(), words::power(AB, n));
                (Case::Call { call, needle, haystack, state }, fits)
            })
        })
        .collect::<Vec<_>>()
    })
}

/// The most bytes of the texts that are scanned for one byte: a block, a round and a byte are in it,
/// and more than one of each.
pub const SCANNED: usize = 80;

/// Where one byte stands in texts of so many bytes: nowhere, at each place (then both are the
/// same), and at each two places.
pub fn hits(n: usize) -> impl Iterator<Item = Option<[usize; 2]>> {
    let pairs = (0..n).flat_map(move |first| (first..n).map(move |second| Some([first, second])));
    std::iter::once(None).chain(pairs)
}

/// Both searches for one byte in all of these texts.
pub fn scans() -> impl Iterator<Item = Case> {
    (0..=SCANNED).flat_map(|n| {
        hits(n).flat_map(move |hits| {
            let mut haystack = words::power(b"a", n);
            hits.into_iter().flatten().for_each(|hit| haystack[hit] = b'b');
            [false, true].map(|backward| Case::Search {
                needle: b"b".to_vec(),
                haystack: haystack.clone(),
                backward,
            })
        })
    })
}

pub fn cases() -> impl Iterator<Item = Case> {
    let empty_walks = Mode::ALL.into_iter().flat_map(empty_walks);
    let empty = empty_walks.chain(empty_calls().map(|(case, _)| case));
    suffixes().chain(walks()).chain(handed_in()).chain(empty)
}
