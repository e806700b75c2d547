//! What the original says, if its text was at hand when this was built.

use crate::case::*;

pub const AT_HAND: bool = cfg!(original);

/// A search of the whole text for a pattern.
pub type Search = fn(text: &[u8], pattern: &[u8]) -> Option<usize>;

#[cfg(original)]
mod plain {
    extern crate twoway;
    pub use self::twoway::{find_bytes, rfind_bytes};
    use self::twoway::{probe, TwoWaySearcher};
    use crate::case::*;
    use crate::limits::STEP_OVERLAPPING;

    fn counts() -> Counts {
        Counts::default()
    }

    include!("asked.rs");
}

#[cfg(original)]
mod counted {
    extern crate tally;
    extern crate twoway_counted;
    use self::twoway_counted::{find_bytes, probe, rfind_bytes, TwoWaySearcher};
    use crate::case::*;
    use crate::limits::STEP_OVERLAPPING;

    fn counts() -> Counts {
        let [preparing, comparisons, tests] = tally::take();
        Counts { preparing, comparisons, tests }
    }

    include!("asked.rs");
}

#[cfg(original)]
mod pattern {
    extern crate twoway_pattern;
    use self::twoway_pattern::pattern::{ReverseSearcher, SearchStep, Searcher};
    use self::twoway_pattern::StrSearcher;
    use crate::case::*;

    fn stepped(step: SearchStep) -> Answer {
        match step {
            SearchStep::Match(a, b) => Answer::Match(a, b),
            SearchStep::Reject(a, b) => Answer::Reject(a, b),
            SearchStep::Done => Answer::Done,
        }
    }

    fn matched(found: Option<(usize, usize)>) -> Answer {
        found.map_or(Answer::None, |(a, b)| Answer::Match(a, b))
    }

    pub fn walked(haystack: &str, script: &[Call]) -> Vec<Answer> {
        let mut searcher = StrSearcher::new(haystack, "");
        let one = |call: &Call| match call {
            Call::Step => stepped(searcher.next()),
            Call::StepBack => stepped(searcher.next_back()),
            Call::Next => matched(searcher.next_match()),
            Call::NextBack => matched(searcher.next_match_back()),
        };
        script.iter().map(one).collect()
    }
}

/// The original's own walk of an empty needle, in a haystack whose characters are one byte each.
#[cfg(original)]
pub fn empty_walk(haystack: &[u8], script: &[Call]) -> Option<Vec<Answer>> {
    let haystack = std::str::from_utf8(haystack).ok().filter(|text| text.is_ascii())?;
    Some(pattern::walked(haystack, script))
}

#[cfg(not(original))]
pub fn empty_walk(_: &[u8], _: &[Call]) -> Option<Vec<Answer>> {
    None
}

/// The replies of the unchanged Rust, whose counts are 0, and of the copy that counts. Only for
/// cases that 01 does not refuse: the Rust may panic or never end on the others.
#[cfg(original)]
pub fn replies(case: &Case) -> Option<(Reply, Reply)> {
    Some((plain::reply(case), counted::reply(case)))
}

#[cfg(not(original))]
pub fn replies(_: &Case) -> Option<(Reply, Reply)> {
    None
}

/// The unchanged Rust's own search.
#[cfg(original)]
pub fn search(backward: bool) -> Option<Search> {
    Some(if backward { plain::rfind_bytes } else { plain::find_bytes })
}

#[cfg(not(original))]
pub fn search(_: bool) -> Option<Search> {
    None
}
