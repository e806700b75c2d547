//! The meanings that 01 promises, computed from their definitions, with nothing of the
//! algorithm in them.

use crate::words;

pub fn reversed(word: &[u8]) -> Vec<u8> {
    word.iter().rev().copied().collect()
}

/// The least occurrence of the needle at `from` or later.
pub fn least(needle: &[u8], haystack: &[u8], from: usize) -> Option<usize> {
    let m = needle.len();
    (from..(haystack.len() + 1).saturating_sub(m)).find(|&i| haystack[i..i + m] == *needle)
}

pub fn greatest(needle: &[u8], haystack: &[u8]) -> Option<usize> {
    let m = needle.len();
    (0..(haystack.len() + 1).saturating_sub(m)).rfind(|&i| haystack[i..i + m] == *needle)
}

/// What a search means: the least occurrence, or backward the greatest.
pub fn meant(needle: &[u8], haystack: &[u8], backward: bool) -> Option<usize> {
    if backward {
        greatest(needle, haystack)
    } else {
        least(needle, haystack, 0)
    }
}

/// The occurrences from the left, each the least one behind the one before; of an empty needle
/// every place once.
pub fn greedy(needle: &[u8], haystack: &[u8]) -> Vec<usize> {
    let mut list = Vec::new();
    let mut from = 0;
    while let Some(i) = least(needle, haystack, from) {
        list.push(i);
        from = i + needle.len().max(1);
    }
    list
}

/// "every occurrence, not the non-overlapping ones": each place is tried by itself.
pub fn every(needle: &[u8], haystack: &[u8]) -> Vec<usize> {
    (0..=haystack.len()).filter(|&i| haystack[i..].starts_with(needle)).collect()
}

/// "A period of a nonempty word x is a number r, 0 < r <= |x|, with x[i] = x[i+r] wherever
/// both exist." For an empty word 1, as 01 asks of its maximal suffix.
pub fn smallest_period(word: &[u8]) -> usize {
    let m = word.len();
    (1..=m).find(|&r| word[r..] == word[..m - r]).unwrap_or(1)
}

/// The local period at a split of a word over these letters, as the original's comment has it: the
/// length of the shortest word w that is not empty and a repetition there. Each w over the letters
/// is tried.
pub fn local_period(letters: &[u8], word: &[u8], split: usize) -> usize {
    let (u, v) = word.split_at(split);
    // "w is a suffix of u", or "u is a suffix of w"; "w is a prefix of v", or "v is a prefix of w"
    let repetition =
        |w: Vec<u8>| (u.ends_with(&w) || w.ends_with(u)) && (v.starts_with(&w) || w.starts_with(v));
    let mut lengths = 1..;
    let shortest = lengths.find(|&r| words::all(letters, r).any(repetition));
    shortest.expect("the word vu is a repetition, and of the empty word every word is")
}

/// Start and smallest period of the greatest suffix.
pub fn maximal_suffix(word: &[u8], greater: bool) -> (usize, usize) {
    // The order with bytes reversed is the byte order of the complements; in both a proper
    // prefix is less than the longer word.
    let flip = if greater { 255 } else { 0 };
    let word: Vec<u8> = word.iter().map(|byte| byte ^ flip).collect();
    let start = (0..word.len()).max_by_key(|&i| &word[i..]).unwrap_or(0);
    (start, smallest_period(&word[start..]))
}
