//! The stored list of cases: small, the same at every run, and with something of every kind.

use crate::case::*;
use crate::examples;
use crate::limits::{HAYSTACK_BOUND, SCRIPT_LETTERS, WORD_BYTES};
use crate::line;
use crate::model::{fits, RULES};
use crate::naive;
use crate::scripts;
use crate::states;
use crate::words::{self, Dice, ALPHABETS, EDGES};
use std::collections::HashSet;

/// The paper's pages.
const SEED: u64 = 651_675;

/// Words of the original's tests of the maximal suffix.
const SUFFIX_WORDS: &[&str] = &[
    "aab",
    "aabaa",
    "gcagagag",
    "banana",
    "zanana",
    "bac",
    "baaaaaaaa",
    "babbabbab",
    "bababa",
    "abca",
    "abcda",
    "acba",
    "abaaaba",
    "caaaaaaaaacc",
    "aabaab",
    "baabaa",
    "babbab",
];

/// Words and known periods of its tests of the reverse one.
const REVERSE_WORDS: &[(&str, usize)] = &[("babbabbab", 3), ("bababa", 2), ("acba", 3)];

/// Needles and haystacks that its tests walk through.
const WALKED: &[(&str, &str)] = &[
    ("aab", ""),
    ("abaaaba", ""),
    ("GCAGAGAG", "GCATCGCAGAGAGTATACAGTACG"),
    ("nana", "banana"),
    ("BDC\0", "BDC\0\0\0"),
    ("ADA", "ADA\0"),
    ("\0", "\0\0\0\0"),
    ("aabaab", "aabaabx"),
    ("ababab", "abababac"),
    ("abab", "abababac"),
    ("baabb", "baabbbaabc"),
    ("aabaaaabaa", "aabaaaabaabxx"),
    ("babbab", "babbabax"),
    ("abca", "xacbaabcax"),
    ("acba", "xacbaacbxxcba"),
    ("αβ", "ααααααβ"),
    ("aab", "aaable"),
    ("aab", "aaabaabe"),
    ("aaaa", "boyaaarateaaaade"),
    ("aab", "bbbbbbbbb"),
    ("aabaa", "aabaaabaaabaa"),
    ("ababab", "cbcbabababab"),
    ("aabaab", "abbaab"),
];

/// Its tests search this for each of its own parts.
const SEARCHED: &str = "Việt Namacbaabcaabaaba";

pub const MALFORMED: &[&str] = &[
    "",
    " ",
    "-",
    "find",
    "find 61",
    "find 61 ",
    "find  61 6161",
    " find 61 6161",
    "find 61 6161 ",
    "find 61 6161 61",
    "find\t61\t6161",
    "find 6 6161",
    "find 61 616",
    "find 6A 6161",
    "find 61 61-",
    "find -- 6161",
    "find 0x61 6161",
    "find é 6161",
    "Find 61 6161",
    "findb 61 6161",
    "msuf 61",
    "msuf 61 2",
    "msuf 61 01",
    "msuf 61 0 0",
    "rmsuf 61 0",
    "rmsuf 61 -1 0",
    "rmsuf 61 +1 0",
    "rmsuf 61 - 0",
    "rmsuf 61 18446744073709551616 0",
    "rmsuf 61 000000000000000000001 0",
    "prep 61 n",
    "prep 61 a n",
    "prep 61 1.0 n",
    "prep 61 99999999999999999999 n",
    "walk 61 6161 n",
    "walk 61 6161 n ",
    "walk 61 6161 n -",
    "walk 61 6161 n fx",
    "walk 61 6161 n f f",
    "walk 61 6161 n 1",
    "step 61 6161",
    "step 61 6161 f",
    "step 61 6161 -",
    "step 61 6161 S:1:2:0:2:n:0:1:1:0000000200000000:0",
    "step 61 6161 S:1:2:0:2:n:0:1:1:0000000200000000:0:1:1",
    "step 61 6161 S:1:2:0:2:n:0:1:1:0000000200000000",
    "step 61 6161 L:1:2:0:2:n:0:1:1:0000000200000000:0:1",
    "step 61 6161 s:1:2:0:2:n:0:1:1:0000000200000000:0:1",
    "step 61 6161 S:1:2:0:2:n:0:1:1:000000020000000:0:1",
    "step 61 6161 S:1:2:0:2:n:0:1:1:00000002000000000:0:1",
    "step 61 6161 S:1:2:0:2:n:0:1:1:000000020000000A:0:1",
    "step 61 6161 S:1:2::2:n:0:1:1:0000000200000000:0:1",
    "step 61 6161 S:1:2:0:2:n:0:1:-1:0000000200000000:0:1",
    "step 61 6161 S:1:2:0:2:n:0:1:1:0000000200000000:0:18446744073709551616",
    "next 61 6161 L:2:2:0:2:n:1:1:2:0000000200000000:",
    "stepf 61 6161 S:1:2:0:2:n:0:1:1:0000000200000000:0:1",
    "quit",
    "prep - - n",
    "walk - 6161 n E:0:2:0:2:n:1:1",
    "step - 6161 E:0:2:0:2:n:1:2",
    "step - 6161 E:0:2:0:2:n:2:1",
    "step - 6161 E:0:2:0:2:n:1:01",
    "step - 6161 E:0:2:0:2:n:00:1",
    "step - 6161 E:0:2:0:2:n:1:",
    "step - 6161 E:0:2:0:2:n::1",
    "step - 6161 E:0:2:0:2:n:1",
    "step - 6161 E:0:2:0:2:n",
    "step - 6161 E",
    "step - 6161 E:0:2:0:2:n:1:1:1",
    "step - 6161 E:0:2:0:2:n:0:0:1:0000000000000000",
    "step - 6161 E:0:2:0:2:n:0:0:1:0000000000000000:1:1",
    "step - 6161 e:0:2:0:2:n:1:1",
    "step - 6161 L:0:2:0:2:n:1:1",
    "step - 6161 S:0:2:0:2:n:1:1",
    "step - 6161 E:0:2::2:n:1:1",
    "step - 6161 E:0:2:0:18446744073709551616:n:1:1",
    // No mode, and another than the two.
    "prep 61 2",
    "prep 61 2 ",
    "prep 61 2 x",
    "prep 61 2 N",
    "prep 61 2 O",
    "prep 61 2 no",
    "prep 61 2 oo",
    "prep 61 2 0",
    "prep 61 2 n n",
    "prep 61 n 2",
    "prep - 2",
    "walk 61 6161 f",
    "walk 61 6161  F",
    "walk 61 6161 x F",
    "walk 61 6161 N F",
    "walk 61 6161 O F",
    "walk 61 6161 on F",
    "walk 61 6161 1 F",
    "walk 61 6161 F o",
    "walk 61 6161 o",
    "walk 61 6161 o o F",
    "walk - 6161 f",
    "find 61 6161 o",
    "next 61 6161 S:1:2:0:2:0:1:1:0000000200000000:0:1",
    "next 61 6161 S:1:2:0:2::0:1:1:0000000200000000:0:1",
    "next 61 6161 S:1:2:0:2:x:0:1:1:0000000200000000:0:1",
    "next 61 6161 S:1:2:0:2:N:0:1:1:0000000200000000:0:1",
    "next 61 6161 S:1:2:0:2:O:0:1:1:0000000200000000:0:1",
    "next 61 6161 S:1:2:0:2:oo:0:1:1:0000000200000000:0:1",
    "next 61 6161 S:1:2:0:2:1:0:1:1:0000000200000000:0:1",
    "next 61 6161 S:1:2:0:o:2:0:1:1:0000000200000000:0:1",
    "next 61 6161 S:1:2:0:2:0:1:1:0000000200000000:0:1:o",
    "next 61 6161 S:1:2:0:2:o:o:0:1:1:0000000200000000:0:1",
    "next 6162 6162 L:2:2:0:2:1:1:2:0000000600000000",
    "next 6162 6162 L:2:2:0:2:O:1:1:2:0000000600000000",
    "next - 6161 E:0:2:0:2:1:1",
    "next - 6161 E:0:2:0:2::1:1",
    "next - 6161 E:0:2:0:2:no:1:1",
    "next - 6161 E:0:2:0:2:1:1:o",
];

/// Well formed, though they look odd.
pub const ODD: &[&str] = &[
    "rmsuf 61 18446744073709551615 0",
    "rmsuf 616261 00000000000000000002 1",
    "prep 6162 18446744073709551615 n",
    "prep 6162 007 n",
    "step 61 6161 S:01:2:00:2:n:0:1:1:0000000200000000:0:1",
    "step 61 6161 S:01:2:03:2:n:0:1:1:0000000200000000:0:1",
    "nextb 61 6161 S:1:2:18446744073709551615:2:n:0:1:1:ffffffffffffffff:0:1",
    "prep - 007 n",
    "next - 6161 E:00:02:01:2:n:0:1",
    "nextb - 6161 E:0:2:0:18446744073709551615:n:1:1",
    "prep 6161 0 o",
    "nextb 61 6161 S:01:02:000:2:o:0:1:1:0000000200000000:0:1",
];

/// One carriage return at the end of a line is let pass: no second one, and none before it.
const RETURNS: &[&str] = &[
    "find 4142 787841427878784142\r",
    "walk 6e616e61 62616e616e61 n fff\r",
    "find 61 6161\r\r",
    "find 61\r 6161",
    "find 61 6161 \r",
    "\r",
];

struct List {
    lines: Vec<String>,
    seen: HashSet<String>,
    dice: Dice,
    /// What is added is in this mode, where a mode is asked for.
    mode: Mode,
}

pub fn lines() -> Vec<String> {
    let mut list = List::new(SEED);
    list.texts(examples::lines());
    list.source_tests();
    list.tiny();
    list.seeded();
    list.seeded_walks(80);
    list.large();
    list.handed_in(120);
    list.other_needle(40);
    list.broken(&[(b"aabaab", b"aabaabxaa"), (b"baabb", b"baabbbaabc"), (b"", b"abc")]);
    list.empty_walks();
    list.empty_seeded(&[1, 1, 1, 1, 2, 2, 2, 2, 3, 3, 3, 3]);
    list.empty_seeded(&EDGES);
    list.other_kind();
    list.overlapping();
    list.texts(ODD.iter().copied());
    list.texts(MALFORMED.iter().copied());
    list.limits();
    list.texts(RETURNS.iter().copied());
    list.lines
}

/// Lines of every kind from a seed of their own, in any order: what is seeded in the list,
/// words as long as a line takes, and damaged lines.
pub fn batch(seed: u64) -> Vec<Vec<u8>> {
    let mut list = List::new(seed);
    list.seeded();
    for mode in Mode::ALL {
        list.mode = mode;
        list.seeded_walks(50);
        list.long_words();
        list.handed_in(80);
        list.other_needle(20);
        let (needle, haystack) = words::pair(&mut list.dice, 12, 30);
        list.broken(&[(&needle, &haystack), (b"", &haystack)]);
        let n = list.dice.between(2, 30);
        list.empty_seeded(&[2, 2, 3, 3, n, n, n, n]);
        list.empty_seeded(&EDGES);
        for n in [HAYSTACK_BOUND, HAYSTACK_BOUND + 1] {
            list.prepare(b"", n);
        }
        list.other_kind();
    }
    list.texts(ODD.iter().copied());
    list.texts(MALFORMED.iter().copied());
    let mut lines = list.damaged(120);
    lines.extend(list.lines.iter().map(|line| line.clone().into_bytes()));
    for last in (1..lines.len()).rev() {
        lines.swap(last, list.dice.between(0, last));
    }
    lines
}

impl List {
    fn new(seed: u64) -> List {
        let (lines, seen, dice) = (Vec::new(), HashSet::new(), Dice::new(seed));
        List { lines, seen, dice, mode: Mode::NonOverlapping }
    }

    /// Each line once.
    fn text(&mut self, line: String) {
        if self.seen.insert(line.clone()) {
            self.lines.push(line);
        }
    }

    fn texts<'a>(&mut self, lines: impl Iterator<Item = &'a str>) {
        lines.for_each(|line| self.text(line.to_string()));
    }

    fn case(&mut self, case: Case) {
        self.text(line::show_case(&case));
    }

    fn suffixes(&mut self, word: &[u8]) {
        for greater in [false, true] {
            self.case(Case::Suffix { word: word.to_vec(), greater });
        }
    }

    fn reverse_suffixes(&mut self, word: &[u8], known: usize) {
        for greater in [false, true] {
            self.case(Case::ReverseSuffix { word: word.to_vec(), known, greater });
        }
    }

    fn searches(&mut self, needle: &[u8], haystack: &[u8]) {
        for backward in [false, true] {
            let (needle, haystack) = (needle.to_vec(), haystack.to_vec());
            self.case(Case::Search { needle, haystack, backward });
        }
    }

    fn prepare(&mut self, needle: &[u8], n: usize) {
        self.case(Case::Prepare { needle: needle.to_vec(), n, mode: self.mode });
    }

    fn walk(&mut self, needle: &[u8], haystack: &[u8], script: Vec<Call>) {
        let (needle, haystack) = (needle.to_vec(), haystack.to_vec());
        self.case(Case::Walk { needle, haystack, mode: self.mode, script });
    }

    /// The calls of `round` to the end.
    fn whole(&mut self, needle: &[u8], haystack: &[u8], round: &[Call]) {
        let script = scripts::whole(needle, haystack, self.mode, round);
        self.walk(needle, haystack, script);
    }

    fn call(&mut self, call: Call, needle: &[u8], haystack: &[u8], state: State) {
        let (needle, haystack) = (needle.to_vec(), haystack.to_vec());
        self.case(Case::Call { call, needle, haystack, state });
    }

    fn source_tests(&mut self) {
        for word in SUFFIX_WORDS {
            self.suffixes(word.as_bytes());
        }
        for (word, known) in REVERSE_WORDS {
            self.reverse_suffixes(word.as_bytes(), *known);
        }
        for (needle, haystack) in WALKED {
            let (needle, haystack) = (needle.as_bytes(), haystack.as_bytes());
            self.prepare(needle, haystack.len());
            for call in Call::ALL {
                self.whole(needle, haystack, &[call]);
            }
        }
        let searched = SEARCHED.as_bytes();
        let ends: Vec<usize> =
            (0..=searched.len()).filter(|&end| SEARCHED.is_char_boundary(end)).collect();
        for (i, start) in ends.iter().enumerate() {
            for end in &ends[i + 1..] {
                self.searches(&searched[*start..*end], searched);
            }
        }
    }

    /// Every word of a few letters.
    fn tiny(&mut self) {
        for word in words::up_to(b"ab", 4) {
            self.suffixes(&word);
        }
        for word in words::up_to(b"ab", 3) {
            for known in 0..=word.len() + 1 {
                self.reverse_suffixes(&word, known);
            }
        }
        for needle in words::up_to(b"ab", 2) {
            for haystack in words::all(b"ab", 3) {
                self.searches(&needle, &haystack);
            }
        }
    }

    fn seeded(&mut self) {
        for _ in 0..25 {
            let (word, _) = words::pair(&mut self.dice, 24, 0);
            let any = self.dice.between(0, word.len() + 1);
            self.suffixes(&word);
            self.reverse_suffixes(&word, naive::smallest_period(&word));
            self.reverse_suffixes(&word, any);
            self.prepare(&word, any);
        }
        for _ in 0..50 {
            let (needle, haystack) = words::pair(&mut self.dice, 12, 48);
            self.searches(&needle, &haystack);
        }
    }

    fn seeded_walks(&mut self, number: usize) {
        let answered = |call: &Call| !self.mode.refuses(*call);
        let calls: Vec<Call> = Call::ALL.into_iter().filter(answered).collect();
        for _ in 0..number {
            let (needle, haystack) = words::pair(&mut self.dice, 9, 30);
            let round = self.dice.pick(&calls);
            self.whole(&needle, &haystack, &[round]);
            let script = scripts::any(&mut self.dice, 2, 12);
            self.walk(&needle, &haystack, script);
        }
    }

    /// The words that are worst for one searcher or another, any length that a line takes.
    fn large(&mut self) {
        let mut odd_end = words::power(b"a", 1500);
        odd_end[1499] = b'b';
        let run = words::power(b"a", WORD_BYTES);
        self.searches(&odd_end, &run);
        let fibonacci = words::fibonacci(*b"ab", 2584);
        self.walk(&fibonacci[..610], &fibonacci, vec![Call::Next; 4]);
        self.walk(&fibonacci[..377], &fibonacci[..1597], vec![Call::NextBack; 4]);
        let thue_morse = words::thue_morse(*b"ab", 1024);
        self.walk(&thue_morse[3..250], &thue_morse, vec![Call::Next, Call::NextBack, Call::Step]);
        self.suffixes(&thue_morse);
        let letters = ALPHABETS[2];
        let needle = words::random(&mut self.dice, letters, WORD_BYTES);
        self.prepare(&needle, HAYSTACK_BOUND);
    }

    /// At each limit of a line, and one past it. The last walks are over words at theirs, so that
    /// no line that is answered is longer than the first of them; behind that one carriage return
    /// is let pass.
    fn limits(&mut self) {
        let script = |letters| Call::ALL.into_iter().cycle().take(letters).collect::<Vec<_>>();
        let (at, past) = (script(SCRIPT_LETTERS), script(SCRIPT_LETTERS + 1));
        let runs = words::power(b"aabx", 900);
        self.walk(b"ab", &runs, at.clone());
        self.walk(b"ab", &runs, past.clone());
        for bytes in [WORD_BYTES, WORD_BYTES + 1] {
            let word = words::thue_morse(*b"ab", bytes);
            self.searches(&word, b"ab");
            self.searches(&word[bytes - 9..], &word);
        }
        let long = words::fibonacci(*b"ab", WORD_BYTES);
        self.walk(&long, &long, at);
        let longest = self.lines.last().cloned().unwrap_or_default();
        self.walk(&long, &long, past);
        self.text(longest.clone() + "\r");
        self.text(longest + "\r\r");
    }

    /// Fitting states that belong to no needle in particular.
    fn handed_in(&mut self, number: usize) {
        for _ in 0..number {
            let (needle, haystack) = words::pair(&mut self.dice, 6, 14);
            let (m, n) = (needle.len(), haystack.len());
            let any = self.dice.roll();
            let own = RULES.split(&needle).0.set;
            let set = self.dice.pick(&[own, own, u64::MAX, 0, any]);
            let state = states::any_fitting(&mut self.dice, m, n, self.mode, set);
            let call = self.dice.pick(&Call::ALL);
            self.call(call, &needle, &haystack, state);
        }
    }

    /// States prepared for another needle of the same length.
    fn other_needle(&mut self, number: usize) {
        for i in 0..number {
            let (needle, haystack) = words::pair(&mut self.dice, 8, 20);
            let letters = self.dice.pick(&ALPHABETS);
            let other = words::structured(&mut self.dice, letters, needle.len());
            let (state, _) = RULES.prepare(&other, haystack.len(), self.mode);
            self.call(Call::ALL[i % 4], &needle, &haystack, state);
        }
    }

    /// States that don't fit by one number alone, by every field.
    fn broken(&mut self, pairs: &[(&[u8], &[u8])]) {
        let mut calls = Call::ALL.into_iter().cycle();
        for (needle, haystack) in pairs {
            let (m, n) = (needle.len(), haystack.len());
            let (state, _) = RULES.prepare(needle, n, self.mode);
            for state in states::with_one_change(&state) {
                if let Some(call) = calls.next().filter(|_| !fits(&state, m, n)) {
                    self.call(call, needle, haystack, state);
                }
            }
        }
    }

    /// An empty needle in short haystacks, to the end and past it.
    fn empty_walks(&mut self) {
        let mixed: &[Call] = &[Call::Step, Call::NextBack, Call::StepBack, Call::Next];
        for haystack in (0..=3).map(|n| words::power(b"ab", n)) {
            for round in Call::ALL.chunks(1).chain([mixed]) {
                self.whole(b"", &haystack, round);
            }
        }
    }

    /// Scripts and states of an empty needle, in haystacks of these lengths. In a short one a script
    /// of so many calls mostly comes to both ends.
    fn empty_seeded(&mut self, lengths: &[usize]) {
        for (&n, call) in lengths.iter().zip(Call::ALL.into_iter().cycle()) {
            let haystack = words::random(&mut self.dice, ALPHABETS[2], n);
            let script = scripts::any(&mut self.dice, 1, SCRIPT_LETTERS.min(6 * n + 6));
            self.walk(b"", &haystack, script);
            let state = states::any_fitting(&mut self.dice, 0, n, self.mode, 0);
            self.call(call, b"", &haystack, state);
            self.prepare(b"", n);
        }
    }

    /// States of an empty needle's walk handed in with a needle of one byte, also where they name
    /// its length, and states of that needle's walk handed in with an empty one.
    fn other_kind(&mut self) {
        let (empty, _) = RULES.prepare(b"", 2, self.mode);
        let (two_way, _) = RULES.prepare(b"a", 2, self.mode);
        for call in Call::ALL {
            for m in 0..=1 {
                self.call(call, b"a", b"ab", State { m, ..empty });
                self.call(call, b"", b"ab", State { m, ..two_way });
            }
        }
    }

    /// Walks of the original's tests and of words of a few letters in overlapping mode, and less of
    /// what else there is in the other mode.
    fn overlapping(&mut self) {
        self.mode = Mode::Overlapping;
        for (i, (needle, haystack)) in WALKED.iter().enumerate() {
            let (needle, haystack) = (needle.as_bytes(), haystack.as_bytes());
            let script = scripts::overlapping(needle, haystack)[i % 4].clone();
            self.walk(needle, haystack, script);
        }
        for needle in words::all(b"ab", 2) {
            for haystack in words::all(b"ab", 3) {
                self.whole(&needle, &haystack, &[Call::Next, Call::NextBack]);
            }
        }
        self.seeded_walks(14);
        self.handed_in(36);
        self.other_needle(8);
        self.broken(&[(b"aa", b"aaa")]);
        self.empty_seeded(&[1, 2, 2, 3]);
        let fibonacci = words::fibonacci(*b"ab", 610);
        self.whole(&fibonacci[..55], &fibonacci, &[Call::Next, Call::NextBack]);
        // As many matches as a script can ask for.
        let run = words::power(b"a", SCRIPT_LETTERS + 1);
        self.walk(b"aa", &run, vec![Call::Next; SCRIPT_LETTERS]);
        self.walk(b"aa", &run, vec![Call::NextBack; SCRIPT_LETTERS]);
        self.mode = Mode::NonOverlapping;
    }

    /// All that can be asked of words as long as a line takes.
    fn long_words(&mut self) {
        for needle_max in [12, 300, WORD_BYTES] {
            let (needle, haystack) = words::pair(&mut self.dice, needle_max, WORD_BYTES);
            let (m, n) = (needle.len(), haystack.len());
            let any = self.dice.between(0, m + 1);
            self.suffixes(&needle);
            self.reverse_suffixes(&needle, naive::smallest_period(&needle));
            self.reverse_suffixes(&needle, any);
            self.searches(&needle, &haystack);
            let script = scripts::any(&mut self.dice, 1, 40);
            self.walk(&needle, &haystack, script);
            let (prepared, _) = RULES.prepare(&needle, n, self.mode);
            let set = RULES.split(&needle).0.set;
            let fitting = states::any_fitting(&mut self.dice, m, n, self.mode, set);
            for call in Call::ALL {
                self.call(call, &needle, &haystack, prepared);
                self.call(call, &needle, &haystack, fitting);
            }
            self.prepare(&needle, n);
        }
    }

    /// Lines of the list with one byte replaced, put in or left out, or cut off. A few of them
    /// are still well formed.
    fn damaged(&mut self, number: usize) -> Vec<Vec<u8>> {
        (0..number).map(|_| self.damaged_one()).collect()
    }

    fn damaged_one(&mut self) -> Vec<u8> {
        let line = self.dice.between(0, self.lines.len() - 1);
        let mut line = self.lines[line].clone().into_bytes();
        let place = self.dice.between(0, line.len());
        let any = self.dice.between(0, 255) as u8;
        let byte = self.dice.pick(&[b' ', b':', b'-', b'0', b'9', b'a', b'A', b'f', b'F', any]);
        let rest = line.split_off(place);
        match self.dice.between(0, 3) {
            0 => line.push(byte),
            1 => line.extend([&[byte], &rest[..]].concat()),
            2 => line.extend(rest.iter().skip(1)),
            _ => line.extend([byte].iter().chain(rest.iter().skip(1))),
        }
        // A newline would make two lines of it.
        line.retain(|&byte| byte != b'\n');
        line
    }
}
