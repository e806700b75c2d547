//! The original's `EmptyNeedle`, told again over bytes.
//!
//! In the original it stands behind the feature `pattern`, which needs a nightly compiler of its
//! time, and it walks a `str` by its characters. So it can't be run here as the rest of the original
//! is, and these are its lines with a byte for a character: the arms `StrSearcherImpl::Empty` of
//! `StrSearcher`'s `new`, `next`, `next_match`, `next_back` and `next_match_back`. `compare` holds
//! them against the original's own, run over the traits in pattern.rs, where a character is a byte.

use crate::case::*;
use crate::limits::STEP_OVERLAPPING;

pub struct EmptyNeedle {
    position: usize,
    end: usize,
    is_match_fw: bool,
    is_match_bw: bool,
}

impl EmptyNeedle {
    pub fn new(end: usize) -> EmptyNeedle {
        EmptyNeedle { position: 0, end, is_match_fw: true, is_match_bw: true }
    }

    fn next(&mut self, haystack: &[u8]) -> Answer {
        // empty needle rejects every char and matches every empty string between them
        let is_match = self.is_match_fw;
        self.is_match_fw = !self.is_match_fw;
        let pos = self.position;
        match haystack[pos..].first() {
            _ if is_match => Answer::Match(pos, pos),
            None => Answer::Done,
            Some(_) => {
                self.position += 1;
                Answer::Reject(pos, self.position)
            }
        }
    }

    fn next_match(&mut self, haystack: &[u8]) -> Answer {
        loop {
            match self.next(haystack) {
                Answer::Done => return Answer::None,
                Answer::Reject(..) => {}
                found => return found,
            }
        }
    }

    fn next_back(&mut self, haystack: &[u8]) -> Answer {
        let is_match = self.is_match_bw;
        self.is_match_bw = !self.is_match_bw;
        let end = self.end;
        match haystack[..end].last() {
            _ if is_match => Answer::Match(end, end),
            None => Answer::Done,
            Some(_) => {
                self.end -= 1;
                Answer::Reject(self.end, end)
            }
        }
    }

    fn next_match_back(&mut self, haystack: &[u8]) -> Answer {
        loop {
            match self.next_back(haystack) {
                Answer::Done => return Answer::None,
                Answer::Reject(..) => {}
                found => return found,
            }
        }
    }

    /// One call, as the original answers it.
    pub fn called(&mut self, call: Call, haystack: &[u8]) -> Answer {
        match call {
            Call::Step => self.next(haystack),
            Call::StepBack => self.next_back(haystack),
            Call::Next => self.next_match(haystack),
            Call::NextBack => self.next_match_back(haystack),
        }
    }

    /// One call, up to the difference that 02 asks for: "In the Rust the flag flips again after
    /// Done, so a further call gives Match at the end once more. Ours stays Done". So the flags are
    /// put back where it says Done, and nothing else is. It has no modes: a step in overlapping
    /// mode is refused before it is asked.
    fn staying_done(&mut self, call: Call, mode: Mode, haystack: &[u8]) -> Answer {
        if mode.refuses(call) {
            return Answer::Refused(STEP_OVERLAPPING);
        }
        let flags = (self.is_match_fw, self.is_match_bw);
        let answer = self.called(call, haystack);
        if matches!(answer, Answer::Done | Answer::None) {
            (self.is_match_fw, self.is_match_bw) = flags;
        }
        answer
    }

    fn state(&self, n: usize, mode: Mode) -> State {
        let kind = Kind::Empty { forward: self.is_match_fw, backward: self.is_match_bw };
        State { m: 0, n, position: self.position, end: self.end, mode, kind }
    }
}

/// What it says to a case that walks an empty needle, None to any other. Only for cases that are
/// not refused: it has no refusals.
pub fn reply(case: &Case) -> Option<Reply> {
    match case {
        Case::Prepare { needle, n, mode } if needle.is_empty() => {
            Some(Reply::Prepared { state: EmptyNeedle::new(*n).state(*n, *mode), preparing: 0 })
        }
        Case::Call { call, haystack, state, .. } => {
            let State { position, end, mode, kind, .. } = *state;
            let Kind::Empty { forward, backward } = kind else { return None };
            let (is_match_fw, is_match_bw) = (forward, backward);
            let mut searcher = EmptyNeedle { position, end, is_match_fw, is_match_bw };
            let answer = searcher.staying_done(*call, mode, haystack);
            let state = searcher.state(haystack.len(), mode);
            Some(Reply::Called(Called { answer, state, counts: Counts::default() }))
        }
        Case::Walk { needle, haystack, mode, script } if needle.is_empty() => {
            let mut searcher = EmptyNeedle::new(haystack.len());
            let one = |&call| (searcher.staying_done(call, *mode, haystack), Counts::default());
            let calls = script.iter().map(one).collect();
            let state = searcher.state(haystack.len(), *mode);
            Some(Reply::Walked { preparing: 0, calls, state })
        }
        _ => None,
    }
}
