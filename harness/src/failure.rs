//! A case on which two sides differ, made as small as it gets.

use crate::case::*;
use crate::line;

/// A case that does not agree, and how.
pub struct Failure {
    case: Box<Case>,
    why: String,
}

/// A run of cases: the first one that does not agree ends it.
pub type Outcome = Result<(), Failure>;

impl Failure {
    pub fn new(case: Case, why: String) -> Failure {
        Failure { case: Box::new(case), why }
    }

    /// Leaves out bytes and calls as long as `verdict` still does not agree.
    pub fn smallest(mut self, verdict: impl Fn(&Case) -> Result<(), String>) -> Failure {
        let still = |case: Case| verdict(&case).err().map(|why| Failure::new(case, why));
        loop {
            let found = smaller(&self.case).find_map(still);
            match found {
                Some(found) => self = found,
                None => return self,
            }
        }
    }

    pub fn shown(&self) -> String {
        format!("{} | {}", brief(&line::show_case(&self.case)), brief(&self.why))
    }
}

/// Cut off where a reader has seen enough: the haystack may have 64 MiB.
pub fn brief(text: &str) -> String {
    match text.get(..3000) {
        Some(start) => format!("{start}.. ({} characters)", text.len()),
        None => text.to_string(),
    }
}

/// The case with a part left out. A handed-in state holds the lengths, so it stays as it is.
fn smaller<'a>(case: &'a Case) -> Box<dyn Iterator<Item = Case> + 'a> {
    match case {
        Case::Suffix { word, greater } => {
            Box::new(cuts(word).map(|word| Case::Suffix { word, greater: *greater }))
        }
        Case::ReverseSuffix { word, known, greater } => {
            let (known, greater) = (*known, *greater);
            Box::new(cuts(word).map(move |word| Case::ReverseSuffix { word, known, greater }))
        }
        Case::Prepare { needle, n, mode } => {
            Box::new(cuts(needle).map(|needle| Case::Prepare { needle, n: *n, mode: *mode }))
        }
        Case::Search { needle, haystack, backward } => {
            let built = |needle, haystack| Case::Search { needle, haystack, backward: *backward };
            let needles = cuts(needle).map(move |needle| built(needle, haystack.clone()));
            let haystacks = cuts(haystack).map(move |haystack| built(needle.clone(), haystack));
            Box::new(needles.chain(haystacks))
        }
        Case::Walk { needle, haystack, mode, script } => {
            let built = |needle: &[u8], haystack: &[u8], script: &[Call]| Case::Walk {
                needle: needle.to_vec(),
                haystack: haystack.to_vec(),
                mode: *mode,
                script: script.to_vec(),
            };
            let scripts = cuts(script).map(move |script| built(needle, haystack, &script));
            let needles = cuts(needle).map(move |needle| built(&needle, haystack, script));
            let haystacks = cuts(haystack).map(move |haystack| built(needle, &haystack, script));
            Box::new(scripts.chain(needles).chain(haystacks))
        }
        Case::Call { .. } => Box::new(std::iter::empty()),
    }
}

/// The list without one part of it, large parts first.
fn cuts<T: Clone>(list: &[T]) -> impl Iterator<Item = Vec<T>> + '_ {
    let halved = |part: &usize| Some(part / 2).filter(|&part| part > 0);
    let parts = std::iter::successors(Some(list.len()).filter(|&part| part > 0), halved);
    parts.flat_map(move |part| {
        let starts = (0..=list.len() - part).step_by(part);
        starts.map(move |start| [&list[..start], &list[start + part..]].concat())
    })
}
