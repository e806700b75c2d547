//! Document 01 with the requests [1], [3] and [4] of 02 as a program, written from their text and not
//! from the Rust.
//!
//! Sentences in quotes are theirs. `Fault` puts one wrong thing into it on purpose, so that
//! `oracle break` can show that the comparison with the Rust would notice.

use crate::case::*;
use crate::limits::*;
use crate::naive;
use std::cmp::{max, min};

#[derive(Clone, Copy, Debug, PartialEq, Eq)]
pub enum Fault {
    None,
    DifferenceNotCounted,
    MemoryKeptAfterSkip,
    MemoryKeptAfterRightDifference,
    BackwardMemoryKeptAfterLeftDifference,
    BackSplitFromForward,
    LongStoresSmallestPeriod,
    LongPeriodTakenAsPeriod,
    LongMovesByNeedle,
    RejectForEver,
    SharedMemory,
    NarrowFingerprint,
    KnownPeriodBeforeRound,
    BackwardMemoryIndexIncluded,
    RefusalsInOtherOrder,
    DoneFlipsFlag,
    OneFlag,
    RejectPastEnd,
    EmptyFitsOneByte,
    EmptyRefused,
    ScanCountedInRounds,
    MatchMovesByOne,
    MatchMovesByNeedle,
    MatchForgets,
    BackwardMatchForgets,
    BackwardMatchKeepsRest,
    LongMatchMovesBySmallestPeriod,
    StepNotRefused,
    StepRefusedBeforeFit,
    CallFlipsMode,
    IndexZeroLeftOut,
}

pub struct Model {
    pub fault: Fault,
}

/// 01 without a fault.
pub const RULES: Model = Model { fault: Fault::None };

/// What the refusals look at: the lengths, and the call and its state if it takes one.
struct Asked<'a> {
    m: usize,
    n: usize,
    call: Option<(Call, &'a State)>,
}

/// What a maximal suffix pass finds, and its rounds.
pub struct Pass {
    pub start: usize,
    pub period: usize,
    pub rounds: u64,
}

/// A call in progress. What the state holds of its kind is in `two_way` meanwhile.
struct Walk<'a> {
    needle: &'a [u8],
    haystack: &'a [u8],
    state: State,
    two_way: TwoWay,
    counts: Counts,
}

/// How far a match moves, and the memory that it sets in its direction.
struct AfterMatch {
    by: usize,
    forward: usize,
    backward: usize,
}

/// "A state fits a needle and haystack when all hold". Either mode fits.
pub fn fits(state: &State, m: usize, n: usize) -> bool {
    let lengths = state.m == m && state.n == n;
    let cursors = state.position <= n && state.end <= n;
    let kind = match &state.kind {
        Kind::TwoWay(two_way) => splits_fit(two_way, m),
        // "An empty walk's state fits an empty needle only, .. flags as they may be."
        Kind::Empty { .. } => m == 0,
    };
    lengths && cursors && kind
}

fn splits_fit(&TwoWay { c, b, p, memory, .. }: &TwoWay, m: usize) -> bool {
    match memory {
        Memory::Short { forward, backward } => {
            c < p
                && p <= m
                && b > m - p
                && b <= m
                && (forward == 0 || forward == m - p)
                && (backward == m || backward == p)
        }
        Memory::Long => 1 <= c && c < m && b == c && p == max(c, m - c) + 1,
    }
}

/// "the number, counts 0, no position"
fn refused(number: u8, state: State) -> Called {
    Called { answer: Answer::Refused(number), state, counts: Counts::default() }
}

impl Model {
    pub fn reply(&self, case: &Case) -> Reply {
        match (self.refusal_of(case), case) {
            // "A call that takes a state hands back that same state on a refusal."
            (Some(number), Case::Call { state, .. }) => Reply::Called(refused(number, *state)),
            (Some(number), _) => Reply::Refused(number),
            (None, _) => self.accepted(case),
        }
    }

    fn accepted(&self, case: &Case) -> Reply {
        match case {
            Case::Suffix { word, greater } => {
                let Pass { start, period, rounds } = self.maximal_suffix(word, *greater);
                Reply::Suffix { start, period, rounds }
            }
            Case::ReverseSuffix { word, known, greater } => {
                let pass = self.reverse_maximal_suffix(word, *known, *greater);
                Reply::ReverseSuffix { start: pass.start, rounds: pass.rounds }
            }
            Case::Prepare { needle, n, mode } => {
                let (state, preparing) = self.prepare(needle, *n, *mode);
                Reply::Prepared { state, preparing }
            }
            Case::Search { needle, haystack, backward } => {
                let (position, counts) = self.search(needle, haystack, *backward);
                Reply::Found { position, counts }
            }
            Case::Call { call, needle, haystack, state } => {
                Reply::Called(self.call(*call, needle, haystack, *state))
            }
            Case::Walk { needle, haystack, mode, script } => {
                self.walk(needle, haystack, *mode, script)
            }
        }
    }

    /// The refusal that 01 gives to a case, if any.
    pub fn refusal_of(&self, case: &Case) -> Option<u8> {
        let (m, n, call) = match case {
            // "The two maximal suffix calls make only check 2, on their word."
            Case::Suffix { word, .. } | Case::ReverseSuffix { word, .. } => (word.len(), 0, None),
            Case::Prepare { needle, n, .. } => (needle.len(), *n, None),
            Case::Search { needle, haystack, .. } | Case::Walk { needle, haystack, .. } => {
                (needle.len(), haystack.len(), None)
            }
            Case::Call { call, needle, haystack, state } => {
                (needle.len(), haystack.len(), Some((*call, state)))
            }
        };
        self.refusal(&Asked { m, n, call })
    }

    /// The refusal of a find or rfind, by the lengths alone.
    pub fn refusal_of_search(&self, m: usize, n: usize) -> Option<u8> {
        self.refusal(&Asked { m, n, call: None })
    }

    /// "Checks run in the order 1, 2, 3, 4, and the first that applies is the answer"; but
    /// "Preparing and walking no longer give refusal 3", and 5 is given "after check 4".
    fn refusal(&self, &Asked { m, n, call }: &Asked) -> Option<u8> {
        let empty_refused = self.fault == Fault::EmptyRefused && m == 0 && call.is_some();
        let step_refused = call.is_some_and(|(call, state)| state.mode.refuses(call));
        let mut checks = [
            (HAYSTACK_TOO_LONG, n > HAYSTACK_BOUND),
            (NEEDLE_TOO_LONG, m > NEEDLE_BOUND),
            (NEEDLE_EMPTY, empty_refused),
            (STATE_DOES_NOT_FIT, call.is_some_and(|(_, state)| !self.fits(state, m, n))),
            (STEP_OVERLAPPING, step_refused && self.fault != Fault::StepNotRefused),
        ];
        match self.fault {
            Fault::RefusalsInOtherOrder => checks.reverse(),
            Fault::StepRefusedBeforeFit => checks.swap(3, 4),
            _ => {}
        }
        checks.iter().find(|check| check.1).map(|check| check.0)
    }

    fn fits(&self, state: &State, m: usize, n: usize) -> bool {
        let as_empty = self.fault == Fault::EmptyFitsOneByte && m == 1;
        fits(state, m, n) || as_empty && fits(state, 0, n)
    }

    pub fn maximal_suffix(&self, word: &[u8], greater: bool) -> Pass {
        self.pass(word, greater, None)
    }

    /// "does the same on the reversed word, gives the start only, and stops after the first
    /// round in which its current period equals the known one"
    pub fn reverse_maximal_suffix(&self, word: &[u8], known: usize, greater: bool) -> Pass {
        self.pass(&naive::reversed(word), greater, Some(known))
    }

    /// The rounds are those of the paper, in its own numbering from 1: the greatest suffix so
    /// far starts behind place i, the one tried behind j, and a round compares their k-th
    /// letters; p is the period of the greatest one as far as it was read.
    fn pass(&self, word: &[u8], greater: bool, known: Option<usize>) -> Pass {
        let letter = |place: usize| word[place - 1];
        let before = self.fault == Fault::KnownPeriodBeforeRound;
        let (mut i, mut j, mut k, mut p) = (0, 1, 1, 1);
        let mut rounds = 0;
        while j + k <= word.len() {
            if before && known == Some(p) {
                break;
            }
            rounds += 1;
            let (tried, best) = (letter(j + k), letter(i + k));
            let less = if greater { tried > best } else { tried < best };
            if tried == best && k == p {
                (j, k) = (j + p, 1);
            } else if tried == best {
                k += 1;
            } else if less {
                (j, k) = (j + k, 1);
                p = j - i;
            } else {
                (i, j, k, p) = (j, j + 1, 1, 1);
            }
            if !before && known == Some(p) {
                break;
            }
        }
        Pass { start: i, period: p, rounds }
    }

    /// "the least positive r with x[i] = x[i+r] for each i from |u|-r to |u|-1 for which" 0 <= i and
    /// i+r < |x|: "Index 0 counts".
    pub fn local_period(&self, word: &[u8], split: usize) -> usize {
        let first = if self.fault == Fault::IndexZeroLeftOut { 1 } else { 0 };
        let repeats = |r: &usize| {
            let mut indices = max(first, split.saturating_sub(*r))..split;
            indices.all(|i| i + r >= word.len() || word[i] == word[i + r])
        };
        (1..).find(repeats).expect("nothing is asked of an r that is the word's length or more")
    }

    /// The state and the preparing count, for a needle and a length that are not refused.
    pub fn prepare(&self, needle: &[u8], n: usize, mode: Mode) -> (State, u64) {
        let (kind, preparing) = if needle.is_empty() {
            (Kind::Empty { forward: true, backward: true }, 0)
        } else {
            let (two_way, preparing) = self.split(needle);
            (Kind::TwoWay(two_way), preparing)
        };
        (State { m: needle.len(), n, position: 0, end: n, mode, kind }, preparing)
    }

    /// The splits and all that goes with them, for a needle that has bytes.
    pub fn split(&self, needle: &[u8]) -> (TwoWay, u64) {
        // 1. "Take the false order's pair if its start is strictly greater, else the true
        // order's."
        let low = self.maximal_suffix(needle, false);
        let high = self.maximal_suffix(needle, true);
        let chosen = if low.start > high.start { &low } else { &high };
        let (c, p) = (chosen.start, chosen.period);
        // 2. "Compare the needle's first c bytes with the c bytes that start at p, left to
        // right, stopping at the first difference."
        let equal = (0..c).take_while(|&i| needle[i] == needle[p + i]).count();
        let pairs = min(equal + 1, c) as u64;
        let mut preparing = low.rounds + high.rounds + pairs;
        let mut two_way = TwoWay { c, b: c, p, set: 0, memory: Memory::Long };
        if equal == c {
            preparing += self.become_short(needle, &mut two_way);
        } else {
            self.become_long(needle, &mut two_way);
        }
        (two_way, preparing)
    }

    /// 3. Gives the rounds of the two reverse passes.
    fn become_short(&self, needle: &[u8], two_way: &mut TwoWay) -> u64 {
        let m = needle.len();
        let low = self.reverse_maximal_suffix(needle, two_way.p, false);
        let high = self.reverse_maximal_suffix(needle, two_way.p, true);
        if self.fault != Fault::BackSplitFromForward {
            two_way.b = m - max(low.start, high.start);
        }
        two_way.set = self.fingerprint(&needle[..two_way.p]);
        two_way.memory = Memory::Short { forward: 0, backward: m };
        low.rounds + high.rounds
    }

    /// 4.
    fn become_long(&self, needle: &[u8], two_way: &mut TwoWay) {
        let m = needle.len();
        two_way.p = max(two_way.c, m - two_way.c) + 1;
        if self.fault == Fault::LongStoresSmallestPeriod {
            two_way.p = naive::smallest_period(needle);
        }
        if self.fault == Fault::LongPeriodTakenAsPeriod {
            two_way.memory = Memory::Short { forward: 0, backward: m };
        }
        two_way.set = self.fingerprint(needle);
    }

    /// "A byte sets bit (byte AND 63) of the fingerprint."
    fn bit(&self, byte: u8) -> u64 {
        let mask = if self.fault == Fault::NarrowFingerprint { 31 } else { 63 };
        1 << (byte & mask)
    }

    fn fingerprint(&self, bytes: &[u8]) -> u64 {
        bytes.iter().fold(0, |set, &byte| set | self.bit(byte))
    }

    /// One call that takes a state.
    pub fn call(&self, call: Call, needle: &[u8], haystack: &[u8], state: State) -> Called {
        let (m, n) = (needle.len(), haystack.len());
        if let Some(number) = self.refusal(&Asked { m, n, call: Some((call, &state)) }) {
            return refused(number, state);
        }
        let mut called = match state.kind {
            // "An empty needle gives the same list in both modes."
            Kind::Empty { forward, backward } => self.empty(call, state, forward, backward),
            Kind::TwoWay(two_way) => {
                let counts = Counts::default();
                let mut walk = Walk { needle, haystack, state, two_way, counts };
                let answer = if call.is_backward() {
                    self.backward(&mut walk, call.is_step())
                } else {
                    self.forward(&mut walk, call.is_step())
                };
                let state = State { kind: Kind::TwoWay(walk.two_way), ..walk.state };
                Called { answer, state, counts: walk.counts }
            }
        };
        if self.fault == Fault::CallFlipsMode {
            let overlapping = state.mode == Mode::Overlapping;
            called.state.mode = Mode::ALL[usize::from(!overlapping)];
        }
        called
    }

    /// "forward Match(0,0), Reject(0,1), Match(1,1) up to Match(n,n), then Done; backward the
    /// mirror." A direction's cursor and flag tell how many of these it has given. "For an empty
    /// needle all counts are 0".
    fn empty(&self, call: Call, mut state: State, mut forward: bool, mut backward: bool) -> Called {
        let n = state.n;
        let (cursor, flag) =
            if call.is_backward() { (n - state.end, backward) } else { (state.position, forward) };
        let (mut answer, given) = self.given(2 * cursor + usize::from(!flag), n, call.is_step());
        let (cursor, flag) = (given / 2, given % 2 == 0);
        if call.is_backward() {
            (state.end, backward) = (n - cursor, flag);
            answer = answer.mirrored(n);
        } else {
            (state.position, forward) = (cursor, flag);
        }
        if self.fault == Fault::OneFlag {
            (forward, backward) = (flag, flag);
        }
        let past_end = self.fault == Fault::RejectPastEnd && call == Call::Step;
        if past_end && answer == Answer::Done {
            answer = Answer::Reject(n, n + 1);
        }
        state.kind = Kind::Empty { forward, backward };
        Called { answer, state, counts: Counts::default() }
    }

    /// What comes behind the first `given` of these, and how many are given then.
    fn given(&self, given: usize, n: usize, stepping: bool) -> (Answer, usize) {
        let (place, matched) = (given / 2, given % 2 == 1);
        if !matched {
            (Answer::Match(place, place), given + 1)
        } else if place < n && stepping {
            (Answer::Reject(place, place + 1), given + 1)
        } else if place < n {
            (Answer::Match(place + 1, place + 1), given + 2)
        } else {
            // "In the Rust the flag flips again after Done .. Ours stays Done"
            let flipped = usize::from(self.fault == Fault::DoneFlipsFlag);
            (if stepping { Answer::Done } else { Answer::None }, given - flipped)
        }
    }

    /// `stepping` is false for next match: "the same without Done and without the middle
    /// Reject, answering none instead of the last Reject".
    fn forward(&self, walk: &mut Walk, stepping: bool) -> Answer {
        let (m, n, old) = (walk.state.m, walk.state.n, walk.state.position);
        if stepping && old == n && self.fault != Fault::RejectForEver {
            return Answer::Done;
        }
        loop {
            let position = walk.state.position;
            let last = position + m - 1;
            if last >= n {
                walk.state.position = n;
                return if stepping { Answer::Reject(old, n) } else { Answer::None };
            }
            if stepping && position != old {
                return Answer::Reject(old, position);
            }
            if self.forward_window(walk, last) {
                return Answer::Match(position, position + m);
            }
        }
    }

    /// Looks at the window that ends with index `last`, and moves; says whether the needle is
    /// there.
    fn forward_window(&self, walk: &mut Walk, last: usize) -> bool {
        let State { m, position, .. } = walk.state;
        let TwoWay { c, p, memory, .. } = walk.two_way;
        if !self.test(walk, last) {
            walk.state.position += m;
            self.forget_forward(walk, Fault::MemoryKeptAfterSkip);
            return false;
        }
        // Long compares from c up and then down to 0, as a memory of 0 does.
        let memory = match memory {
            Memory::Short { forward, .. } => forward,
            Memory::Long => 0,
        };
        for i in max(c, memory)..m {
            if self.differs(walk, i, position) {
                walk.state.position += i - c + 1;
                self.forget_forward(walk, Fault::MemoryKeptAfterRightDifference);
                return false;
            }
        }
        for i in (memory..c).rev() {
            if self.differs(walk, i, position) {
                walk.state.position += self.left_move(walk, p);
                self.remember_forward(walk, m - p);
                return false;
            }
        }
        let after = self.after_match(walk);
        walk.state.position += after.by;
        self.remember_forward(walk, after.forward);
        true
    }

    /// "No difference: move by m, memory 0", backward "Match, down by m, memory m"; but in
    /// overlapping mode "move by p and keep memory m-p (backward p); Long moves by its stored p."
    fn after_match(&self, walk: &Walk) -> AfterMatch {
        let (m, TwoWay { p, memory, .. }) = (walk.state.m, walk.two_way);
        if walk.state.mode == Mode::NonOverlapping {
            return AfterMatch { by: m, forward: 0, backward: m };
        }
        let mut after = AfterMatch { by: p, forward: m - p, backward: p };
        match self.fault {
            Fault::MatchMovesByOne => after.by = 1,
            Fault::MatchMovesByNeedle => after.by = m,
            Fault::MatchForgets => after.forward = 0,
            Fault::BackwardMatchForgets => after.backward = m,
            Fault::BackwardMatchKeepsRest => after.backward = m - p,
            Fault::LongMatchMovesBySmallestPeriod if memory == Memory::Long => {
                after.by = naive::smallest_period(walk.needle);
            }
            _ => {}
        }
        after
    }

    /// "a difference moves by p"
    fn left_move(&self, walk: &Walk, p: usize) -> usize {
        let long = walk.two_way.memory == Memory::Long;
        if long && self.fault == Fault::LongMovesByNeedle {
            walk.state.m
        } else {
            p
        }
    }

    fn backward(&self, walk: &mut Walk, stepping: bool) -> Answer {
        let (m, n, old) = (walk.state.m, walk.state.n, walk.state.end);
        if stepping && old == 0 && self.fault != Fault::RejectForEver {
            return Answer::Done;
        }
        loop {
            let end = walk.state.end;
            // "The window starts at end-m by wrapping subtraction, and there is no room when
            // that index is not inside the haystack"
            let start = end.wrapping_sub(m);
            if start >= n {
                walk.state.end = 0;
                return if stepping { Answer::Reject(0, old) } else { Answer::None };
            }
            if stepping && end != old {
                return Answer::Reject(end, old);
            }
            if self.backward_window(walk, start) {
                return Answer::Match(start, end);
            }
        }
    }

    fn backward_window(&self, walk: &mut Walk, start: usize) -> bool {
        let m = walk.state.m;
        let TwoWay { b, p, memory, .. } = walk.two_way;
        if !self.test(walk, start) {
            walk.state.end -= m;
            self.remember_backward(walk, m);
            return false;
        }
        // Long compares from b-1 down and then up to m, as a memory of m does.
        let memory = match memory {
            Memory::Short { backward, .. } => backward,
            Memory::Long => m,
        };
        for i in (0..min(b, memory)).rev() {
            if self.differs(walk, i, start) {
                walk.state.end -= b - i;
                if self.fault != Fault::BackwardMemoryKeptAfterLeftDifference {
                    self.remember_backward(walk, m);
                }
                return false;
            }
        }
        let included = (self.fault == Fault::BackwardMemoryIndexIncluded && memory < m) as usize;
        for i in b..memory + included {
            if self.differs(walk, i, start) {
                walk.state.end -= self.left_move(walk, p);
                self.remember_backward(walk, p);
                return false;
            }
        }
        let after = self.after_match(walk);
        walk.state.end -= after.by;
        self.remember_backward(walk, after.backward);
        true
    }

    /// "Tests: one for each fingerprint test"
    fn test(&self, walk: &mut Walk, index: usize) -> bool {
        walk.counts.tests += 1;
        walk.two_way.set & self.bit(walk.haystack[index]) != 0
    }

    /// "Comparisons: one for each needle byte set against a haystack byte, the differing one
    /// included."
    fn differs(&self, walk: &mut Walk, i: usize, start: usize) -> bool {
        let differs = walk.needle[i] != walk.haystack[start + i];
        if !(differs && self.fault == Fault::DifferenceNotCounted) {
            walk.counts.comparisons += 1;
        }
        differs
    }

    fn forget_forward(&self, walk: &mut Walk, kept: Fault) {
        if self.fault != kept {
            self.remember_forward(walk, 0);
        }
    }

    /// "In either direction only Short sets memory; Long has none."
    fn remember_forward(&self, walk: &mut Walk, value: usize) {
        if let Memory::Short { forward, backward } = &mut walk.two_way.memory {
            *forward = value;
            if self.fault == Fault::SharedMemory {
                *backward = walk.state.m - value;
            }
        }
    }

    fn remember_backward(&self, walk: &mut Walk, value: usize) {
        if let Memory::Short { forward, backward } = &mut walk.two_way.memory {
            *backward = value;
            if self.fault == Fault::SharedMemory {
                *forward = walk.state.m - value;
            }
        }
    }

    /// "Empty needle: find 0, rfind n. One byte: a scan from the front or back. Otherwise
    /// prepare, then one next match." For lengths that are not refused.
    pub fn search(
        &self,
        needle: &[u8],
        haystack: &[u8],
        backward: bool,
    ) -> (Option<usize>, Counts) {
        let n = haystack.len();
        if needle.is_empty() {
            return (Some(if backward { n } else { 0 }), Counts::default());
        }
        if needle.len() == 1 {
            return self.scan(needle[0], haystack, backward);
        }
        let (state, preparing) = self.prepare(needle, n, Mode::NonOverlapping);
        let call = if backward { Call::NextBack } else { Call::Next };
        let called = self.call(call, needle, haystack, state);
        let position = match called.answer {
            Answer::Match(start, _) => Some(start),
            _ => None,
        };
        (position, Counts { preparing, ..called.counts })
    }

    /// "the scan compares up to and including the hit, or all n bytes if there is none"
    fn scan(&self, byte: u8, haystack: &[u8], backward: bool) -> (Option<usize>, Counts) {
        let n = haystack.len();
        let mut counts = Counts::default();
        for i in 0..n {
            let place = if backward { n - 1 - i } else { i };
            let hit = haystack[place] == byte;
            if hit || self.fault != Fault::DifferenceNotCounted {
                counts.comparisons += 1;
            }
            if hit {
                if self.fault == Fault::ScanCountedInRounds {
                    counts.comparisons = counts.comparisons.next_multiple_of(8);
                }
                return (Some(place), counts);
            }
        }
        (None, counts)
    }

    /// Preparing, then the calls of the script, each with the state of the one before.
    fn walk(&self, needle: &[u8], haystack: &[u8], mode: Mode, script: &[Call]) -> Reply {
        let (mut state, preparing) = self.prepare(needle, haystack.len(), mode);
        let mut calls = Vec::with_capacity(script.len());
        for &call in script {
            let called = self.call(call, needle, haystack, state);
            calls.push((called.answer, called.counts));
            state = called.state;
        }
        Reply::Walked { preparing, calls, state }
    }
}
