//! The local period. No code computes it: it is a definition, by which the theory says that a split
//! is critical. The model's is held against brute force here; that of `crates/words/specs` is
//! computed by the prover, and `harness/defined` holds it against the same.

use crate::case::{TwoWay, Word};
use crate::model::Model;
use crate::naive;
use crate::words::{self, Letters};

/// Words over two letters and over three.
pub type Sizes = [Letters<'static>; 2];

pub const fn sizes(two: usize, three: usize) -> Sizes {
    [(b"ab", two), (b"abc", three)]
}

/// What the prover computes in some seconds, and in a minute or two.
pub const SHORT: Sizes = sizes(8, 5);
pub const LONG: Sizes = sizes(12, 7);

/// So many words stand in one claim: the prover counts the steps of each.
const CLAIM: usize = 256;

/// Every word but the empty one, which has no period.
pub fn words((letters, longest): Letters<'_>) -> impl Iterator<Item = Word> + '_ {
    words::up_to(letters, longest).filter(|word| !word.is_empty())
}

/// Those at the splits from 0 to the word's length, by brute force.
fn locals(letters: &[u8], word: &[u8]) -> Vec<usize> {
    (0..=word.len()).map(|split| naive::local_period(letters, word, split)).collect()
}

/// The model's local periods against brute force's; the largest of them is the smallest period, and
/// so are those at the splits that preparing gives.
pub fn check(model: &Model, letters: &[u8], word: &[u8]) -> Result<(), String> {
    let locals = locals(letters, word);
    for (split, meant) in locals.iter().enumerate() {
        let said = model.local_period(word, split);
        if said != *meant {
            return Err(format!("the local period at {split} is {said}, by brute force {meant}"));
        }
    }
    let period = naive::smallest_period(word);
    if locals.iter().max() != Some(&period) {
        return Err(format!("the largest of {locals:?} is not the smallest period {period}"));
    }
    let (TwoWay { c, b, .. }, _) = model.split(word);
    match [c, b].iter().find(|&&split| locals[split] != period) {
        Some(split) => Err(format!("the split {split} is not critical: {locals:?}")),
        None => Ok(()),
    }
}

/// A list as the logic writes it.
fn list<T: std::fmt::Display>(items: impl IntoIterator<Item = T>) -> String {
    items.into_iter().map(|item| format!("{item} ∷ ")).collect::<String>() + "[]"
}

/// A word, and its smallest period and local periods by brute force.
fn row(letters: &[u8], word: &[u8]) -> String {
    let stated = list([naive::smallest_period(word)].into_iter().chain(locals(letters, word)));
    format!("    record {{ computed = periods ({}); stated = {stated} }}", list(word))
}

/// A file for `proofs/` of the crate words, in which the prover computes the same for each word.
pub fn table(sizes: Sizes) -> impl Iterator<Item = String> {
    let head = [
        "-- Smallest and local periods, computed from the definitions, beside those of brute force.",
        "use Rattle.std.specs.Prelude.{ℕ, List, [], ◌∷◌, T}",
        "use Rattle.words.specs.Word.{front}",
        "use Rattle.words.specs.Choice.{every, first_from}",
        "use Rattle.words.specs.Listed.{passing}",
        "use Rattle.words.specs.Period.{periodb, smallest_period, local_repeatb, local_period}",
        "use Rattle.words.specs.Examples.{locals, same, all_as_stated}",
        "",
        "abbrev periods : List ℕ → List ℕ",
        "periods w = smallest_period (front w) ∷ locals w",
    ];
    let rows =
        sizes.into_iter().flat_map(|letters| words(letters).map(move |word| row(letters.0, &word)));
    let rows: Vec<String> = rows.collect();
    let claims = rows.chunks(CLAIM).enumerate().map(claim).collect::<Vec<_>>();
    head.map(str::to_string).into_iter().chain(claims)
}

fn claim((number, rows): (usize, &[String])) -> String {
    let unfolding = "all_as_stated same passing smallest_period periodb local_period local_repeatb";
    format!(
        "\npub words_{number} : T (all_as_stated (\n{}\n    ∷ []))\nunfolding {unfolding} every first_from\nwords_{number} = tt",
        rows.join(" ∷\n")
    )
}
