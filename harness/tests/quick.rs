//! The quick tests: what `harness/check` runs at scale, in some seconds.

use harness::broken;
use harness::case::{Answer, Call, Case, Kind, Mode, Reply, State};
use harness::compare::{compare, QUICK_RUN};
use harness::examples;
use harness::exhaustive;
use harness::judge;
use harness::limits::{SCRIPT_LETTERS, WORD_BYTES};
use harness::line;
use harness::list;
use harness::local;
use harness::meaning;
use harness::model::{Fault, Model, RULES};
use harness::naive;
use harness::program;
use harness::retold::EmptyNeedle;
use harness::scripts;
use harness::words;

const STORED_CASES: &[u8] = include_bytes!("../../crates/walk/stdin");
const STORED_ANSWERS: &[u8] = include_bytes!("../../crates/walk/stdout");

fn lines(text: &[u8]) -> impl Iterator<Item = &[u8]> {
    text.strip_suffix(b"\n").expect("the last line ends").split(|&byte| byte == b'\n')
}

#[test]
fn the_documents_examples_hold() {
    for (case, said) in examples::table() {
        assert_eq!(examples::check(&RULES, &case, said), Ok(()), "{}", line::show_case(&case));
    }
}

#[test]
fn the_stored_cases_are_those_of_the_list() {
    let printed = list::lines();
    assert_eq!(lines(STORED_CASES).count(), printed.len());
    for (stored, printed) in lines(STORED_CASES).zip(&printed) {
        assert_eq!(
            stored.escape_ascii().to_string(),
            printed.as_bytes().escape_ascii().to_string()
        );
    }
}

#[test]
fn the_stored_answers_are_the_judges() {
    assert_eq!(lines(STORED_CASES).count(), lines(STORED_ANSWERS).count());
    for (asked, stored) in lines(STORED_CASES).zip(lines(STORED_ANSWERS)) {
        let stored = std::str::from_utf8(stored).expect("an answer is text");
        assert_eq!(judge::answer(asked).as_deref(), Ok(stored), "{}", asked.escape_ascii());
    }
}

#[test]
fn model_original_and_meaning_agree() {
    let outcome = compare(program::SEED, &QUICK_RUN);
    assert!(outcome.is_ok(), "{}", outcome.err().map_or(String::new(), |failure| failure.shown()));
}

#[test]
fn wrong_models_are_caught() {
    assert!(broken::all_caught());
}

/// What is read from a line and printed again is the line, but for a number's leading zeros and a
/// carriage return at the end.
#[test]
fn a_line_is_read_and_printed_as_it_was() {
    let zeros = |field: &str| field.len() > 1 && field.starts_with('0');
    let mut read = 0;
    for text in list::lines() {
        let Some(case) = line::parse(text.as_bytes()) else { continue };
        let printed = line::show_case(&case);
        if text.ends_with('\r') || text.split([' ', ':']).any(zeros) {
            let again = line::parse(printed.as_bytes()).map(|case| line::show_case(&case));
            assert_eq!(again, Some(printed));
        } else {
            assert_eq!(printed, text);
            read += 1;
        }
    }
    assert!(read > 500, "only {read} lines");
}

#[test]
fn malformed_lines_are_not_read() {
    for text in list::MALFORMED {
        assert!(line::parse(text.as_bytes()).is_none(), "{text}");
    }
    for text in list::ODD {
        assert!(line::parse(text.as_bytes()).is_some(), "{text}");
    }
}

/// Every pair of flags that a state can name, to the byte.
#[test]
fn a_flag_is_one_digit() {
    let flags = ["0", "1", "", "2", "00", "01", "10", "11", "-", "+1", "f", "F", "\0", "1\0"];
    for (i, forward) in flags.iter().enumerate() {
        for (j, backward) in flags.iter().enumerate() {
            let text = format!("step - 61 E:0:1:1:0:n:{forward}:{backward}");
            let printed = line::parse(text.as_bytes()).map(|case| line::show_case(&case));
            assert_eq!(printed, Some(text).filter(|_| i < 2 && j < 2));
        }
    }
}

/// Every mode that a line can name, to the byte, in each place that names one.
#[test]
fn a_mode_is_one_letter() {
    let modes = ["n", "o", "", "x", "N", "O", "no", "on", "nn", "oo", "0", "1", "-", "\0", "n\0"];
    for (i, mode) in modes.iter().enumerate() {
        for text in [
            format!("prep 61 2 {mode}"),
            format!("walk 61 6161 {mode} F"),
            format!("next 61 6161 S:1:2:0:2:{mode}:0:1:1:0000000200000000:0:1"),
            format!("next 6162 6161 L:2:2:0:2:{mode}:1:1:2:0000000600000000"),
            format!("next - 61 E:0:1:1:0:{mode}:0:1"),
        ] {
            let printed = line::parse(text.as_bytes()).map(|case| line::show_case(&case));
            assert_eq!(printed, Some(text).filter(|_| i < 2));
        }
    }
}

/// The one difference from the original in a walk of an empty needle, on its smallest input: behind
/// Done the original's flag flips again. What the model is held against has the flag put back.
#[test]
fn done_stays_done() {
    use Answer::{Done, Match};
    for (call, forward) in [(Call::Step, false), (Call::StepBack, true)] {
        let mut original = EmptyNeedle::new(0);
        let given = [(); 4].map(|()| original.called(call, b""));
        assert_eq!(given, [Match(0, 0), Done, Match(0, 0), Done]);
        let (mut state, _) = RULES.prepare(b"", 0, Mode::NonOverlapping);
        let given = [(); 4].map(|()| {
            let called = RULES.call(call, b"", b"", state);
            state = called.state;
            called.answer
        });
        assert_eq!(given, [Match(0, 0), Done, Done, Done]);
        let kind = Kind::Empty { forward, backward: !forward };
        let mode = Mode::NonOverlapping;
        assert_eq!(state, State { m: 0, n: 0, position: 0, end: 0, mode, kind });
    }
}

/// The meaning alone, without the original told again.
#[test]
fn wrong_walks_of_an_empty_needle_have_another_meaning() {
    let walks = || exhaustive::empty_walks(Mode::NonOverlapping);
    assert!(has_its_meaning(Fault::None, walks()));
    for fault in [Fault::DoneFlipsFlag, Fault::OneFlag, Fault::RejectPastEnd, Fault::EmptyRefused] {
        assert!(!has_its_meaning(fault, walks()), "{fault:?}");
    }
}

fn has_its_meaning(fault: Fault, mut cases: impl Iterator<Item = Case>) -> bool {
    let model = Model { fault };
    cases.all(|case| meaning::check(&case, &model.reply(&case)).is_ok())
}

/// Overlapping walks of all words of a few letters.
fn overlapping_walks() -> impl Iterator<Item = Case> {
    let pairs = words::pairs((b"ab", 5), (b"ab", 9));
    pairs.flat_map(|(needle, haystack)| {
        scripts::overlapping(&needle, &haystack).map(|script| {
            let (needle, haystack) = (needle.clone(), haystack.clone());
            Case::Walk { needle, haystack, mode: Mode::Overlapping, script }
        })
    })
}

/// The meaning alone, without the original. Where a match forgets, the list is the same, but 2n-m
/// does not hold: "aaa" in "aaaaaa".
#[test]
fn wrong_overlapping_walks_have_another_meaning() {
    use Fault::*;
    assert!(has_its_meaning(None, overlapping_walks()));
    for fault in [
        MatchMovesByOne,
        MatchMovesByNeedle,
        MatchForgets,
        BackwardMatchForgets,
        BackwardMatchKeepsRest,
        LongMatchMovesBySmallestPeriod,
        StepNotRefused,
        CallFlipsMode,
    ] {
        assert!(!has_its_meaning(fault, overlapping_walks()), "{fault:?}");
    }
}

/// The matches that a walk to the end gives.
fn matches(needle: &[u8], haystack: &[u8], mode: Mode, call: Call) -> Vec<usize> {
    let script = scripts::whole(needle, haystack, mode, &[call]);
    let (needle, haystack) = (needle.to_vec(), haystack.to_vec());
    let reply = RULES.reply(&Case::Walk { needle, haystack, mode, script });
    let Reply::Walked { calls, .. } = reply else { panic!("{reply:?}") };
    let start = |(answer, _): &(Answer, _)| match answer {
        Answer::Match(start, _) => Some(*start),
        _ => None,
    };
    calls.iter().filter_map(start).collect()
}

/// "aa" in "aaaa" at 0, 1, 2, "rising forward and falling backward"
#[test]
fn next_match_lists_every_occurrence() {
    let list = |mode, call| matches(b"aa", b"aaaa", mode, call);
    assert_eq!(list(Mode::NonOverlapping, Call::Next), [0, 2]);
    assert_eq!(list(Mode::NonOverlapping, Call::NextBack), [2, 0]);
    assert_eq!(list(Mode::Overlapping, Call::Next), [0, 1, 2]);
    assert_eq!(list(Mode::Overlapping, Call::NextBack), [2, 1, 0]);
    for n in 0..20 {
        for call in [Call::Next, Call::NextBack] {
            let list = |mode| matches(b"", &words::power(b"ab", n), mode, call);
            assert_eq!(list(Mode::NonOverlapping), list(Mode::Overlapping));
        }
    }
}

/// "Index 0 counts: the condition is 0 <= i, and the answer for that split is 2."
#[test]
fn index_zero_counts() {
    let left_out = Model { fault: Fault::IndexZeroLeftOut };
    assert_eq!(RULES.local_period(b"ab", 1), 2);
    assert_eq!(naive::local_period(b"ab", b"ab", 1), 2);
    assert_eq!(left_out.local_period(b"ab", 1), 1);
    let locals = |word: &[u8]| (0..=word.len()).map(|at| RULES.local_period(word, at)).collect();
    let banana: Vec<usize> = locals(b"banana");
    assert_eq!(banana, [1, 6, 6, 2, 2, 2, 1]);
    // At a word's ends nothing is asked.
    assert_eq!(locals(b""), [1]);
    assert_eq!(locals(b"a"), [1, 1]);
    let row = "record { computed = periods (97 ∷ 98 ∷ []); stated = 2 ∷ 1 ∷ 2 ∷ 1 ∷ [] }";
    assert!(local::table(local::sizes(2, 0)).any(|claim| claim.contains(row)));
}

#[test]
fn lines_have_limits() {
    let search = |bytes| format!("find {} {}", "61".repeat(bytes), "62".repeat(bytes));
    let walk = |letters| format!("walk 61 62 n {}", "f".repeat(letters));
    let taken = |text: String| line::parse(text.as_bytes()).is_some();
    assert!(taken(search(WORD_BYTES)) && !taken(search(WORD_BYTES + 1)));
    assert!(taken(walk(SCRIPT_LETTERS)) && !taken(walk(SCRIPT_LETTERS + 1)));
    assert!(!taken(walk(0)) && !taken(search(0)));
    assert!(taken("find - -\r".to_string()) && !taken("find - -\r\r".to_string()));
    // The longest line of all, as docs/LINES.md has it.
    let read = list::lines().into_iter().filter(|text| taken(text.clone()));
    let longest = read.map(|text| text.trim_end_matches('\r').len()).max();
    assert_eq!(longest, Some(16_649));
}

#[test]
fn options_are_read_in_any_order() {
    assert_eq!(program::options(&[]), Some((program::SEED, false)));
    assert_eq!(program::options(&["--long", "--seed", "7"]), Some((7, true)));
    assert_eq!(program::options(&["--seed", "7", "--long"]), Some((7, true)));
    assert_eq!(program::options(&["--seed"]), None);
    assert_eq!(program::options(&["--seed", "x"]), None);
}
