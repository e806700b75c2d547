/// Appended behind the unchanged text of the original, so that it sees the private fields
/// and the private steps of `TwoWaySearcher`. The crate is no_std and calls `core` `std`.
///
/// The original may panic or never end on a state that doesn't fit: callers hand in only
/// states that do.
pub mod probe {
    use super::{MatchOnly, TwoWaySearcher, TwoWayStrategy};
    use std::usize;

    pub enum Step {
        Match(usize, usize),
        Reject(usize, usize),
        Done,
    }

    /// Behaves as the original's `RejectAndMatch`, which only a nightly compiler takes.
    enum EarlyReject {}

    impl TwoWayStrategy for EarlyReject {
        type Output = Step;

        fn use_early_reject() -> bool {
            true
        }
        fn rejecting(a: usize, b: usize) -> Step {
            Step::Reject(a, b)
        }
        fn matching(a: usize, b: usize) -> Step {
            Step::Match(a, b)
        }
    }

    /// The fields of a searcher. `memory` is forward and backward memory, or None for Long.
    pub struct Fields {
        pub crit_pos: usize,
        pub crit_pos_back: usize,
        pub period: usize,
        pub byteset: u64,
        pub position: usize,
        pub end: usize,
        pub memory: Option<(usize, usize)>,
    }

    impl Fields {
        pub fn prepare(needle: &[u8], end: usize) -> Fields {
            Fields::shown(&TwoWaySearcher::new(needle, end))
        }

        fn shown(searcher: &TwoWaySearcher) -> Fields {
            Fields {
                crit_pos: searcher.crit_pos,
                crit_pos_back: searcher.crit_pos_back,
                period: searcher.period,
                byteset: searcher.byteset,
                position: searcher.position,
                end: searcher.end,
                memory: if searcher.memory == usize::MAX {
                    None
                } else {
                    Some((searcher.memory, searcher.memory_back))
                },
            }
        }

        fn built(&self) -> TwoWaySearcher {
            let (memory, memory_back) = self.memory.unwrap_or((usize::MAX, usize::MAX));
            TwoWaySearcher {
                crit_pos: self.crit_pos,
                crit_pos_back: self.crit_pos_back,
                period: self.period,
                byteset: self.byteset,
                position: self.position,
                end: self.end,
                memory: memory,
                memory_back: memory_back,
            }
        }

        /// Runs one call of the original on a searcher with these fields; the call is also
        /// told whether the searcher is Long.
        fn run<T, F>(&mut self, call: F) -> T
        where
            F: FnOnce(&mut TwoWaySearcher, bool) -> T,
        {
            let mut searcher = self.built();
            let answer = call(&mut searcher, self.memory.is_none());
            *self = Fields::shown(&searcher);
            answer
        }

        /// The guard for Done is the one in the original's `StrSearcher`.
        pub fn step(&mut self, needle: &[u8], haystack: &[u8]) -> Step {
            if self.position == haystack.len() {
                return Step::Done;
            }
            self.run(|searcher, long| searcher.next::<EarlyReject>(haystack, needle, long))
        }

        pub fn step_back(&mut self, needle: &[u8], haystack: &[u8]) -> Step {
            if self.end == 0 {
                return Step::Done;
            }
            self.run(|searcher, long| searcher.next_back::<EarlyReject>(haystack, needle, long))
        }

        pub fn next_match(&mut self, needle: &[u8], haystack: &[u8]) -> Option<(usize, usize)> {
            self.run(|searcher, long| searcher.next::<MatchOnly>(haystack, needle, long))
        }

        pub fn next_match_back(
            &mut self,
            needle: &[u8],
            haystack: &[u8],
        ) -> Option<(usize, usize)> {
            self.run(|searcher, long| searcher.next_back::<MatchOnly>(haystack, needle, long))
        }

        /// The original has no overlapping matches, but its notes say how to have them. For a
        /// searcher that has just found the needle at `start`: "add self.period instead of
        /// needle.len()", and memory "set to needle.len() - self.period".
        pub fn overlap(&mut self, start: usize, needle: &[u8]) {
            self.position = start + self.period;
            if let Some((ref mut memory, _)) = self.memory {
                *memory = needle.len() - self.period;
            }
        }

        /// The same where the needle was found up to `end`, backward: "sub self.period instead of
        /// needle.len()". For memory the notes say nothing here, but 02 says p.
        pub fn overlap_back(&mut self, end: usize) {
            self.end = end - self.period;
            if let Some((_, ref mut memory_back)) = self.memory {
                *memory_back = self.period;
            }
        }
    }
}
