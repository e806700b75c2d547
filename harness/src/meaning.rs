//! Holds a reply against the meanings in naive.rs and against the bounds of demand 3.

use crate::case::*;
use crate::limits::{PREPARING_PER_BYTE, STATE_DOES_NOT_FIT, STEP_OVERLAPPING};
use crate::model::fits;
use crate::naive;

const TOO_MANY: &str = "too many comparisons or tests";
const ANOTHER_MODE: &str = "the state has another mode";

/// Err says which promise is broken.
pub fn check(case: &Case, reply: &Reply) -> Result<(), String> {
    match (case, reply) {
        (Case::Suffix { word, greater }, Reply::Suffix { start, period, .. }) => ensure(
            (*start, *period) == naive::maximal_suffix(word, *greater),
            "not the maximal suffix and its smallest period",
        ),
        (Case::ReverseSuffix { word, known, greater }, Reply::ReverseSuffix { start, .. }) => {
            // 01 promises the true start for the smallest period only.
            let promised = *known == naive::smallest_period(word);
            let true_start = || naive::maximal_suffix(&naive::reversed(word), *greater).0;
            ensure(!promised || *start == true_start(), "not the maximal suffix's start")
        }
        (Case::Prepare { needle, n, mode }, Reply::Prepared { state, preparing }) => {
            ensure(state.mode == *mode, ANOTHER_MODE)?;
            prepared(needle, *n, state, *preparing)
        }
        (Case::Search { needle, haystack, backward }, Reply::Found { position, counts }) => {
            found(needle, haystack, *backward, *position, counts)
        }
        (Case::Call { call, needle, haystack, state: before }, Reply::Called(reply)) => {
            called(*call, needle.len(), haystack.len(), before, reply)
        }
        (Case::Walk { needle, haystack, mode, script }, Reply::Walked { calls, state, .. }) => {
            ensure(state.mode == *mode, ANOTHER_MODE)?;
            walked(needle, haystack, script, calls, state)
        }
        (_, Reply::Refused(_)) => Ok(()),
        _ => Err("a reply to another question".to_string()),
    }
}

fn ensure(holds: bool, otherwise: &str) -> Result<(), String> {
    if holds {
        Ok(())
    } else {
        Err(otherwise.to_string())
    }
}

/// The bytes that a fitting state has left in a call's direction.
pub fn left(call: Call, state: &State) -> usize {
    if call.is_backward() {
        state.end
    } else {
        state.n - state.position
    }
}

/// Demand 3 for a walk one way over `left` bytes. "For an empty needle all counts are 0 and demand
/// 3 reads so."
pub fn within(counts: &Counts, m: usize, left: usize) -> bool {
    if m == 0 || m > left {
        return counts.comparisons == 0 && counts.tests == 0;
    }
    counts.comparisons <= (2 * left - m) as u64 && counts.tests <= (left - m + 1) as u64
}

/// Demand 3 for preparing.
fn few_rounds(preparing: u64, m: usize) -> Result<(), String> {
    ensure(preparing <= (PREPARING_PER_BYTE * m) as u64, "too many rounds of preparing")
}

fn prepared(needle: &[u8], n: usize, state: &State, preparing: u64) -> Result<(), String> {
    let m = needle.len();
    let period = naive::smallest_period(needle);
    let kind_holds = match state.kind {
        Kind::TwoWay(TwoWay { p, memory: Memory::Short { .. }, .. }) => p == period,
        Kind::TwoWay(TwoWay { c, p, .. }) => c.max(m - c) < p && p <= period,
        Kind::Empty { forward, backward } => forward && backward,
    };
    ensure(fits(state, m, n), "a prepared state that does not fit")?;
    ensure(state.position == 0 && state.end == n, "cursors not at the ends")?;
    ensure(kind_holds, "the wrong kind of period, or a flag that is not set")?;
    few_rounds(preparing, m)
}

/// A handed-in state may belong to other bytes, so its answer has no meaning; but it is settled
/// whether it is refused. "after check 4, state handed back"
fn called(call: Call, m: usize, n: usize, before: &State, reply: &Called) -> Result<(), String> {
    let number = match (fits(before, m, n), before.mode.refuses(call)) {
        (false, _) => STATE_DOES_NOT_FIT,
        (true, true) => STEP_OVERLAPPING,
        (true, false) => {
            let refused = matches!(reply.answer, Answer::Refused(_));
            ensure(!refused, "refused, though the state fits")?;
            ensure(reply.state.mode == before.mode, ANOTHER_MODE)?;
            return ensure(within(&reply.counts, m, left(call, before)), TOO_MANY);
        }
    };
    let answer = Answer::Refused(number);
    let refused = Called { answer, state: *before, counts: Counts::default() };
    ensure(*reply == refused, "not refused by the right number, or not as a refusal is")
}

fn found(
    needle: &[u8],
    haystack: &[u8],
    backward: bool,
    position: Option<usize>,
    counts: &Counts,
) -> Result<(), String> {
    let meant = naive::meant(needle, haystack, backward);
    ensure(position == meant, &format!("the occurrence meant is {meant:?}"))?;
    few_rounds(counts.preparing, needle.len())?;
    ensure(within(counts, needle.len(), haystack.len()), TOO_MANY)
}

/// What a walk counts in one direction.
pub fn total(script: &[Call], calls: &[(Answer, Counts)], backward: bool) -> Counts {
    let mut total = Counts::default();
    let one_way = script.iter().zip(calls).filter(|(call, _)| call.is_backward() == backward);
    one_way.for_each(|(_, called)| total += called.1);
    total
}

fn walked(
    needle: &[u8],
    haystack: &[u8],
    script: &[Call],
    calls: &[(Answer, Counts)],
    last: &State,
) -> Result<(), String> {
    let n = haystack.len();
    let (mut forward, mut backward) = (Vec::new(), Vec::new());
    for (&call, &(answer, counts)) in script.iter().zip(calls) {
        if call.is_backward() {
            backward.push((call, answer.mirrored(n), counts));
        } else {
            forward.push((call, answer, counts));
        }
    }
    for backward in [false, true] {
        ensure(within(&total(script, calls, backward), needle.len(), n), TOO_MANY)?;
    }
    // Backward is forward in a mirror, and neither direction may disturb the other.
    let forward = one_way(needle, haystack, &forward, last)?;
    let backward = one_way(&naive::reversed(needle), &naive::reversed(haystack), &backward, last)?;
    let cursors = last.position == forward.0 && last.end == n - backward.0;
    ensure(cursors, "the cursors are not where the answers ended")?;
    match last.kind {
        Kind::Empty { forward: f, backward: b } => {
            ensure((f, b) == (forward.1, backward.1), "a flag is not whether a Match is next")
        }
        Kind::TwoWay(_) => Ok(()),
    }
}

/// The matches of a whole walk, in the order of the haystack, and how far one moves the cursor.
fn matches(needle: &[u8], haystack: &[u8], walk: &State) -> (Vec<usize>, usize) {
    match (walk.mode, walk.kind) {
        (Mode::NonOverlapping, _) => (naive::greedy(needle, haystack), needle.len()),
        (Mode::Overlapping, Kind::TwoWay(TwoWay { p, .. })) => (naive::every(needle, haystack), p),
        (Mode::Overlapping, Kind::Empty { .. }) => (naive::every(needle, haystack), 0),
    }
}

/// Of the walk that ends in the state `last`: the answers in one direction, each with its call and
/// counts. Steps go through the haystack without gaps, a refused one changes nothing, and the
/// matches are those that are meant, none left out before the cursor and all of them before the
/// end. Gives the place where they end, and whether the next match is right there.
fn one_way(
    needle: &[u8],
    haystack: &[u8],
    said: &[(Call, Answer, Counts)],
    last: &State,
) -> Result<(usize, bool), String> {
    // At the start an empty needle's next is a match; the other kind has no flag.
    if said.is_empty() {
        return Ok((0, true));
    }
    let n = haystack.len();
    let (meant, by) = matches(needle, haystack, last);
    let mut ahead = meant.iter().copied().peekable();
    let mut at = 0;
    for &(call, answer, counts) in said {
        let next = ahead.peek().copied();
        let (stepping, refused) = (call.is_step(), last.mode.refuses(call));
        let (holds, then) = match answer {
            Answer::Refused(STEP_OVERLAPPING) => (refused && counts == Counts::default(), at),
            _ if refused => (false, at),
            Answer::Match(a, b) => {
                ahead.next();
                let there = if stepping { a == at } else { a >= at };
                (there && next == Some(a) && b == a + needle.len(), a + by)
            }
            Answer::Reject(a, b) => (stepping && a == at && a < b && b <= next.unwrap_or(n), b),
            Answer::Done => (stepping && at == n && next.is_none(), n),
            Answer::None => (!stepping && next.is_none(), n),
            Answer::Refused(_) => (false, at),
        };
        if !holds {
            return Err(format!("{answer:?} at {at}, though the matches are {meant:?}"));
        }
        at = then;
    }
    let next = ahead.next();
    ensure(next.is_none_or(|next| next >= at), "an occurrence is left out before the cursor")?;
    Ok((at, next == Some(at)))
}
