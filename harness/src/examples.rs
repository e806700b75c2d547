//! Answers that stand in the documents themselves, so that model and Rust can't be wrong
//! together about them.

use crate::case::*;
use crate::judge::judge;
use crate::limits::{HAYSTACK_BOUND, NEEDLE_BOUND};
use crate::line;
use crate::model::Model;
use crate::states;
use Mode::{NonOverlapping, Overlapping};

/// A way to build a case, and its answer in the form of `TABLE`.
type Built = (fn() -> Case, &'static str);

/// The case's line, and its answer as far as the documents give it: a field that ends in `*`
/// may go on in any way.
const TABLE: &[(&str, &str)] = &[
    // P1 to P3: "aab", "gcagagag", "banana"
    ("msuf 616162 0", "ok 2 1 *"),
    ("msuf 616162 1", "ok 0 3 *"),
    ("msuf 6763616761676167 0", "ok 0 7 *"),
    ("msuf 6763616761676167 1", "ok 2 2 *"),
    ("msuf 62616e616e61 0", "ok 2 2 *"),
    ("msuf 62616e616e61 1", "ok 1 2 *"),
    ("msuf - 0", "ok 0 1 *"),
    ("msuf - 1", "ok 0 1 *"),
    // P4 to P8: "aabaab", "ababab", "acba", "abdc", "baabb"
    ("prep 616162616162 9 n", "ok S:6:9:0:9:n:2:5:3:0000000600000000:0:6 *"),
    ("prep 616261626162 9 n", "ok S:6:9:0:9:n:1:5:2:0000000600000000:0:6 *"),
    ("prep 61636261 9 n", "ok S:4:9:0:9:n:1:2:3:0000000e00000000:0:4 *"),
    ("prep 61626463 9 n", "ok L:4:9:0:9:n:2:2:3:0000001e00000000 *"),
    ("prep 6261616262 9 n", "ok L:5:9:0:9:n:3:3:4:0000000600000000 *"),
    // P9, P10: "nana" in "banana" from both ends
    ("walk 6e616e61 62616e616e61 n fff", "ok 10 reject:0:2/4/1 match:2:6/2/1 done/0/0 *"),
    ("walk 6e616e61 62616e616e61 n bbb", "ok 10 match:2:6/4/1 reject:0:2/0/0 done/0/0 *"),
    // P11: "aa" in "aaa" from both ends
    ("walk 6161 616161 n fff", "ok * match:0:2/* reject:2:3/* done/0/0 *"),
    ("walk 6161 616161 n bbb", "ok * match:1:3/* reject:0:1/* done/0/0 *"),
    // P12: rfind "acba" in "xacbaacbxxcba"
    ("rfind 61636261 78616362616163627878636261", "at:1 * * *"),
    // Run: "a" in "banana" and in the empty word
    ("find 61 62616e616e61", "at:1 0 2 0"),
    ("rfind 61 62616e616e61", "at:5 0 1 0"),
    ("find 61 -", "none 0 0 0"),
    ("rfind 61 -", "none 0 0 0"),
    // an empty needle, and one longer than the haystack
    ("find - 6162", "at:0 0 0 0"),
    ("rfind - 6162", "at:2 0 0 0"),
    ("find 616263 6162", "none * 0 0"),
    ("rfind 616263 6162", "none * 0 0"),
    // counts that the readings settle: "ab" in "ab", "aba" in "ababb", and three where the
    // bound 2n-m is reached
    ("find 6162 6162", "at:0 3 2 1"),
    ("rfind 616261 6162616262", "at:0 * 5 *"),
    ("find 61 61", "at:0 0 1 0"),
    ("rfind 6162 6161", "none * 2 1"),
    // 01 and 41 hex share bit 1, so the test says yes and the comparison says no
    ("find 0101 4141", "none * 1 1"),
    // 02's request [1]: an empty needle in "ab" from both ends, and in the empty word
    ("prep - 5 n", "ok E:0:5:0:5:n:1:1 0"),
    ("walk - 6162 n f", "ok 0 match:0:0/0/0 E:0:2:0:2:n:0:1"),
    (
        "walk - 6162 n fffffff",
        "ok 0 match:0:0/0/0 reject:0:1/0/0 match:1:1/0/0 reject:1:2/0/0 match:2:2/0/0 done/0/0 \
         done/0/0 E:0:2:2:2:n:0:1",
    ),
    (
        "walk - 6162 n bbbbbbb",
        "ok 0 match:2:2/0/0 reject:1:2/0/0 match:1:1/0/0 reject:0:1/0/0 match:0:0/0/0 done/0/0 \
         done/0/0 E:0:2:0:0:n:1:0",
    ),
    (
        "walk - 6162 n FFFFF",
        "ok 0 match:0:0/0/0 match:1:1/0/0 match:2:2/0/0 none/0/0 none/0/0 E:0:2:2:2:n:0:1",
    ),
    (
        "walk - 6162 n BBBBB",
        "ok 0 match:2:2/0/0 match:1:1/0/0 match:0:0/0/0 none/0/0 none/0/0 E:0:2:0:0:n:1:0",
    ),
    ("walk - - n ffff", "ok 0 match:0:0/0/0 done/0/0 done/0/0 done/0/0 E:0:0:0:0:n:0:1"),
    ("walk - - n bbbb", "ok 0 match:0:0/0/0 done/0/0 done/0/0 done/0/0 E:0:0:0:0:n:1:0"),
    // its state fits an empty needle only, with cursors of at most n
    ("step 61 6162 E:0:2:0:2:n:1:1", "ref:4 E:0:2:0:2:n:1:1 0 0"),
    ("step 61 6162 E:1:2:0:2:n:1:1", "ref:4 E:1:2:0:2:n:1:1 0 0"),
    ("step - 6162 E:0:2:3:2:n:1:1", "ref:4 E:0:2:3:2:n:1:1 0 0"),
    ("stepb - 6162 E:0:2:2:0:n:0:0", "done E:0:2:2:0:n:0:0 0 0"),
    // refusals and their order
    ("prep - 67108864 n", "ok E:0:67108864:0:67108864:n:1:1 0"),
    ("prep 61 67108864 n", "ok S:1:67108864:0:67108864:n:0:1:1:0000000200000000:0:1 0"),
    ("prep 61 67108865 n", "ref:1"),
    ("prep - 67108865 n", "ref:1"),
    ("step - 6162 S:0:2:0:2:n:0:0:1:0000000000000000:0:0", "ref:4 S:0:2:0:2:n:0:0:1:* 0 0"),
    ("step - - S:0:0:0:0:n:0:0:0:0000000000000000:0:0", "ref:4 S:0:0:0:0:n:0:0:0:* 0 0"),
    ("step - - L:0:0:0:0:n:0:0:0:0000000000000000", "ref:4 L:0:0:0:0:n:0:0:0:* 0 0"),
    ("step 61 6162 S:1:2:3:2:n:0:1:1:0000000000000000:0:1", "ref:4 S:1:2:3:2:n:0:1:1:* 0 0"),
    // 02's request [3]: "aa" in "aaaa" overlapping at 0, 1, 2, from both ends. The first window
    // compares both bytes, each later one only the byte that its memory does not hold.
    ("prep 6161 4 o", "ok S:2:4:0:4:o:0:2:1:0000000200000000:0:2 4"),
    (
        "walk 6161 61616161 o FFFFF",
        "ok 4 match:0:2/2/1 match:1:3/1/1 match:2:4/1/1 none/0/0 none/0/0 \
         S:2:4:4:4:o:0:2:1:0000000200000000:1:2",
    ),
    (
        "walk 6161 61616161 o BBBBB",
        "ok 4 match:2:4/2/1 match:1:3/1/1 match:0:2/1/1 none/0/0 none/0/0 \
         S:2:4:0:0:o:0:2:1:0000000200000000:0:1",
    ),
    // "aba" in "ababa": p 2, and memory m-p saves the byte left of c, backward the one right of b
    (
        "walk 616261 6162616261 o FFF",
        "ok 8 match:0:3/3/1 match:2:5/2/1 none/0/0 S:3:5:5:5:o:1:2:2:0000000600000000:1:3",
    ),
    (
        "walk 616261 6162616261 o BBB",
        "ok 8 match:2:5/3/1 match:0:3/2/1 none/0/0 S:3:5:0:0:o:1:2:2:0000000600000000:0:2",
    ),
    // Long moves by its stored p: "baabb" in "baabbaabb" by 4, "abdc" twice by 3
    (
        "walk 6261616262 626161626261616262 o FFF",
        "ok 10 match:0:5/5/1 match:4:9/5/1 none/0/0 L:5:9:9:9:o:3:3:4:0000000600000000",
    ),
    (
        "walk 6261616262 626161626261616262 o BBB",
        "ok 10 match:4:9/5/1 match:0:5/5/1 none/0/0 L:5:9:0:0:o:3:3:4:0000000600000000",
    ),
    ("walk 61626463 6162646361626463 o F", "ok 7 match:0:4/4/1 L:4:8:3:8:o:2:2:3:0000001e00000000"),
    (
        "walk 61626463 6162646361626463 o FFF",
        "ok 7 match:0:4/4/1 match:4:8/5/2 none/0/0 L:4:8:8:8:o:2:2:3:0000001e00000000",
    ),
    // a step is refused by 5, also at the end, and the walk goes on from the same state
    (
        "walk 6161 616161 o fFbB",
        "ok 4 ref:5/0/0 match:0:2/2/1 ref:5/0/0 match:1:3/2/1 \
         S:2:3:1:2:o:0:2:1:0000000200000000:1:1",
    ),
    (
        "step 6161 616161 S:2:3:1:2:o:0:2:1:0000000200000000:1:1",
        "ref:5 S:2:3:1:2:o:0:2:1:0000000200000000:1:1 0 0",
    ),
    (
        "stepb 6161 616161 S:2:3:1:2:o:0:2:1:0000000200000000:1:1",
        "ref:5 S:2:3:1:2:o:0:2:1:0000000200000000:1:1 0 0",
    ),
    ("step 61626463 - L:4:0:0:0:o:2:2:3:0000001e00000000", "ref:5 L:4:0:0:0:o:2:2:3:* 0 0"),
    // 4 comes before 5
    ("step 6161 616161 S:2:3:4:3:o:0:2:1:0000000200000000:0:2", "ref:4 S:2:3:4:3:o:0:* 0 0"),
    ("stepb 6161 616161 S:2:3:0:4:o:0:2:1:0000000200000000:0:2", "ref:4 S:2:3:0:4:o:0:* 0 0"),
    ("step 6161 616161 E:0:3:0:3:o:1:1", "ref:4 E:0:3:0:3:o:1:1 0 0"),
    ("step - 6162 E:0:2:3:2:o:1:1", "ref:4 E:0:2:3:2:o:1:1 0 0"),
    ("step - 6162 S:0:2:0:2:o:0:0:1:0000000000000000:0:0", "ref:4 S:0:2:0:2:o:0:0:1:* 0 0"),
    // an empty needle: the same list as in the other mode, and steps refused
    ("prep - 5 o", "ok E:0:5:0:5:o:1:1 0"),
    (
        "walk - 6162 o FFFFF",
        "ok 0 match:0:0/0/0 match:1:1/0/0 match:2:2/0/0 none/0/0 none/0/0 E:0:2:2:2:o:0:1",
    ),
    (
        "walk - 6162 o BBBBB",
        "ok 0 match:2:2/0/0 match:1:1/0/0 match:0:0/0/0 none/0/0 none/0/0 E:0:2:0:0:o:1:0",
    ),
    (
        "walk - 6162 o fFbBF",
        "ok 0 ref:5/0/0 match:0:0/0/0 ref:5/0/0 match:2:2/0/0 match:1:1/0/0 E:0:2:1:2:o:0:0",
    ),
    ("step - 6162 E:0:2:0:2:o:1:1", "ref:5 E:0:2:0:2:o:1:1 0 0"),
    ("stepb - - E:0:0:0:0:o:0:0", "ref:5 E:0:0:0:0:o:0:0 0 0"),
];

/// The bounds themselves. Built one by one, since a haystack at its bound takes 64 MiB.
const BOUNDS: &[Built] = &[
    (|| step(NEEDLE_BOUND, 3, 3, NonOverlapping), "done S:65536:3:3:3:n:* 0 0"),
    (|| step(NEEDLE_BOUND, 3, 4, NonOverlapping), "ref:4 S:65536:3:4:3:n:* 0 0"),
    (|| step(NEEDLE_BOUND + 1, 3, 4, NonOverlapping), "ref:2 S:65537:3:4:3:n:* 0 0"),
    (|| step(NEEDLE_BOUND, 3, 3, Overlapping), "ref:5 S:65536:3:3:3:o:* 0 0"),
    (|| step(NEEDLE_BOUND, 3, 4, Overlapping), "ref:4 S:65536:3:4:3:o:* 0 0"),
    (|| step(NEEDLE_BOUND + 1, 3, 3, Overlapping), "ref:2 S:65537:3:3:3:o:* 0 0"),
    (|| search(NEEDLE_BOUND, NEEDLE_BOUND + 5, false), "at:5 * * *"),
    (|| search(NEEDLE_BOUND, NEEDLE_BOUND + 5, true), "at:0 * * *"),
    (|| search(NEEDLE_BOUND + 1, NEEDLE_BOUND + 5, false), "ref:2"),
    (|| search(NEEDLE_BOUND + 1, NEEDLE_BOUND + 5, true), "ref:2"),
    (|| search(NEEDLE_BOUND, HAYSTACK_BOUND, false), "at:67043328 * * *"),
    (|| search(NEEDLE_BOUND, HAYSTACK_BOUND, true), "at:0 * * *"),
    (|| search(1, HAYSTACK_BOUND, false), "at:67108863 0 67108864 0"),
    (|| search(1, HAYSTACK_BOUND, true), "at:0 0 67108864 0"),
    (|| search(0, HAYSTACK_BOUND, true), "at:67108864 0 0 0"),
    (|| blank(HAYSTACK_BOUND), "ok 0 match:67108864:67108864/0/0 E:0:67108864:0:67108864:n:1:0"),
    (|| blank(HAYSTACK_BOUND + 1), "ref:1"),
    (
        || run(NEEDLE_BOUND, 0, NEEDLE_BOUND + 2, Call::Next),
        "ok * match:0:65536/65536/1 match:1:65537/1/1 match:2:65538/1/1 none/0/0 \
         S:65536:65538:65538:65538:o:0:65536:1:0000000000000002:65535:65536",
    ),
    (
        || run(NEEDLE_BOUND, 0, NEEDLE_BOUND + 2, Call::NextBack),
        "ok * match:2:65538/65536/1 match:1:65537/1/1 match:0:65536/1/1 none/0/0 \
         S:65536:65538:0:0:o:0:65536:1:0000000000000002:0:1",
    ),
    (
        || run(2, HAYSTACK_BOUND - 3, 3, Call::Next),
        "ok 4 match:67108861:67108863/3/33554432 match:67108862:67108864/1/1 none/0/0 \
         S:2:67108864:67108864:67108864:o:0:2:1:0000000000000002:1:2",
    ),
    (|| absent(1, HAYSTACK_BOUND, false), "none 0 67108864 0"),
    (|| absent(2, HAYSTACK_BOUND, false), "none * 0 *"),
    (|| absent(2, HAYSTACK_BOUND, true), "none * 0 *"),
    (|| search(0, HAYSTACK_BOUND + 1, true), "ref:1"),
    (|| search(1, HAYSTACK_BOUND + 1, false), "ref:1"),
    (|| search(NEEDLE_BOUND + 1, HAYSTACK_BOUND + 1, false), "ref:1"),
    (|| search(NEEDLE_BOUND + 1, HAYSTACK_BOUND + 1, true), "ref:1"),
    (|| prepare(NEEDLE_BOUND + 1, 0), "ref:2"),
    (|| prepare(NEEDLE_BOUND + 1, HAYSTACK_BOUND + 1), "ref:1"),
    (|| Case::Suffix { word: ones(NEEDLE_BOUND), greater: false }, "ok 0 1 65535"),
    (|| Case::Suffix { word: ones(NEEDLE_BOUND + 1), greater: true }, "ref:2"),
    (|| reverse(NEEDLE_BOUND), "ok 0 65535"),
    (|| reverse(NEEDLE_BOUND + 1), "ref:2"),
];

/// The table's lines.
pub fn lines() -> impl Iterator<Item = &'static str> {
    TABLE.iter().map(|example| example.0)
}

/// The table's cases and their answers.
pub fn table() -> impl Iterator<Item = (Case, &'static str)> {
    TABLE.iter().map(|(text, wanted)| {
        let case = line::parse(text.as_bytes()).expect("the table's lines are well formed");
        (case, *wanted)
    })
}

/// The cases at the bounds and their answers.
pub fn bounds() -> impl Iterator<Item = (Case, &'static str)> {
    BOUNDS.iter().map(|(case, wanted)| (case(), *wanted))
}

fn ones(len: usize) -> Word {
    vec![1; len]
}

/// Ones at the far end of zeros.
fn search(m: usize, n: usize, backward: bool) -> Case {
    let mut haystack = vec![0; n];
    let far = if backward { 0..m } else { n - m..n };
    haystack[far].fill(1);
    Case::Search { needle: ones(m), haystack, backward }
}

/// Ones in zeros alone.
fn absent(m: usize, n: usize, backward: bool) -> Case {
    Case::Search { needle: ones(m), haystack: vec![0; n], backward }
}

/// A walk of an empty needle.
fn blank(n: usize) -> Case {
    let (mode, script) = (NonOverlapping, vec![Call::NextBack]);
    Case::Walk { needle: Word::new(), haystack: vec![0; n], mode, script }
}

fn prepare(m: usize, n: usize) -> Case {
    Case::Prepare { needle: ones(m), n, mode: NonOverlapping }
}

/// An overlapping walk through all places of ones in a run of ones, behind zeros.
fn run(m: usize, zeros: usize, length: usize, call: Call) -> Case {
    let haystack = [vec![0; zeros], ones(length)].concat();
    let script = vec![call; length - m + 2];
    Case::Walk { needle: ones(m), haystack, mode: Overlapping, script }
}

fn reverse(len: usize) -> Case {
    Case::ReverseSuffix { word: ones(len), known: 0, greater: false }
}

/// A step at that position; the rest of the state fits.
fn step(m: usize, n: usize, position: usize, mode: Mode) -> Case {
    let state = State { position, ..states::at_start(m, n, mode) };
    Case::Call { call: Call::Step, needle: ones(m), haystack: vec![0; n], state }
}

/// Err says what the documents ask for.
pub fn check(model: &Model, case: &Case, wanted: &str) -> Result<(), String> {
    let given = line::show_reply(&judge(model, case)?);
    if fits_pattern(wanted, &given) {
        return Ok(());
    }
    Err(format!("model: {given} | documents: {wanted}"))
}

fn fits_pattern(pattern: &str, text: &str) -> bool {
    let (wanted, given): (Vec<&str>, Vec<&str>) =
        (pattern.split(' ').collect(), text.split(' ').collect());
    let fits = |(wanted, given): (&&str, &&str)| match wanted.strip_suffix('*') {
        Some(start) => given.starts_with(start),
        None => wanted == given,
    };
    wanted.len() == given.len() && wanted.iter().zip(&given).all(fits)
}
