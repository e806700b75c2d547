//! Cases and replies as lines of text. The forms stand in docs/LINES.md.

use crate::case::*;
use crate::limits::{SCRIPT_LETTERS, WORD_BYTES};
use std::fmt::Write;

/// A line without its newline; one carriage return at its end is let pass. None for a malformed
/// line, and for one that asks for too much.
pub fn parse(line: &[u8]) -> Option<Case> {
    let line = line.strip_suffix(b"\r").unwrap_or(line);
    let fields: Vec<&[u8]> = line.split(|&byte| byte == b' ').collect();
    Some(match fields[..] {
        [b"msuf", text, order] => {
            Case::Suffix { word: parse_word(text)?, greater: parse_bit(order)? }
        }
        [b"rmsuf", text, known, order] => Case::ReverseSuffix {
            word: parse_word(text)?,
            known: parse_number(known)?,
            greater: parse_bit(order)?,
        },
        [b"prep", needle, n, mode] => Case::Prepare {
            needle: parse_word(needle)?,
            n: parse_number(n)?,
            mode: parse_mode(mode)?,
        },
        [name @ (b"find" | b"rfind"), needle, haystack] => Case::Search {
            needle: parse_word(needle)?,
            haystack: parse_word(haystack)?,
            backward: name == b"rfind",
        },
        [b"walk", needle, haystack, mode, script] => Case::Walk {
            needle: parse_word(needle)?,
            haystack: parse_word(haystack)?,
            mode: parse_mode(mode)?,
            script: parse_script(script)?,
        },
        [name, needle, haystack, state] => Case::Call {
            call: Call::ALL.into_iter().find(|&call| call_name(call).as_bytes() == name)?,
            needle: parse_word(needle)?,
            haystack: parse_word(haystack)?,
            state: parse_state(state)?,
        },
        _ => return None,
    })
}

fn call_name(call: Call) -> &'static str {
    match call {
        Call::Step => "step",
        Call::StepBack => "stepb",
        Call::Next => "next",
        Call::NextBack => "nextb",
    }
}

fn call_letter(call: Call) -> u8 {
    match call {
        Call::Step => b'f',
        Call::StepBack => b'b',
        Call::Next => b'F',
        Call::NextBack => b'B',
    }
}

fn parse_script(text: &[u8]) -> Option<Vec<Call>> {
    if !(1..=SCRIPT_LETTERS).contains(&text.len()) {
        return None;
    }
    let call = |&letter| Call::ALL.into_iter().find(|&call| call_letter(call) == letter);
    text.iter().map(call).collect()
}

fn mode_letter(mode: Mode) -> char {
    match mode {
        Mode::NonOverlapping => 'n',
        Mode::Overlapping => 'o',
    }
}

fn parse_mode(text: &[u8]) -> Option<Mode> {
    Mode::ALL.into_iter().find(|&mode| [mode_letter(mode) as u8] == *text)
}

/// An order or a flag.
fn parse_bit(text: &[u8]) -> Option<bool> {
    match text {
        b"0" => Some(false),
        b"1" => Some(true),
        _ => None,
    }
}

fn hex_digit(digit: u8) -> Option<u8> {
    match digit {
        b'0'..=b'9' => Some(digit - b'0'),
        b'a'..=b'f' => Some(digit - b'a' + 10),
        _ => None,
    }
}

fn parse_word(text: &[u8]) -> Option<Word> {
    if text == b"-" {
        return Some(Word::new());
    }
    if !(1..=2 * WORD_BYTES).contains(&text.len()) || text.len() % 2 == 1 {
        return None;
    }
    text.chunks(2).map(|pair| Some(hex_digit(pair[0])? * 16 + hex_digit(pair[1])?)).collect()
}

fn parse_number(text: &[u8]) -> Option<usize> {
    if !(1..=20).contains(&text.len()) || !text.iter().all(u8::is_ascii_digit) {
        return None;
    }
    std::str::from_utf8(text).ok()?.parse().ok()
}

fn parse_set(text: &[u8]) -> Option<u64> {
    if text.len() != 16 {
        return None;
    }
    text.iter().try_fold(0, |set, &digit| Some(set << 4 | u64::from(hex_digit(digit)?)))
}

fn parse_state(text: &[u8]) -> Option<State> {
    let fields: Vec<&[u8]> = text.split(|&byte| byte == b':').collect();
    let [kind, m, n, position, end, mode, rest @ ..] = &fields[..] else { return None };
    let kind = match (*kind, rest) {
        (b"E", [forward, backward]) => {
            Kind::Empty { forward: parse_bit(forward)?, backward: parse_bit(backward)? }
        }
        (b"L", [splits @ .., set]) => parse_two_way(splits, set, Memory::Long)?,
        (b"S", [splits @ .., set, forward, backward]) => {
            let (forward, backward) = (parse_number(forward)?, parse_number(backward)?);
            parse_two_way(splits, set, Memory::Short { forward, backward })?
        }
        _ => return None,
    };
    let (m, n) = (parse_number(m)?, parse_number(n)?);
    let (position, end) = (parse_number(position)?, parse_number(end)?);
    Some(State { m, n, position, end, mode: parse_mode(mode)?, kind })
}

fn parse_two_way(splits: &[&[u8]], set: &[u8], memory: Memory) -> Option<Kind> {
    let [c, b, p] = splits else { return None };
    let (c, b, p) = (parse_number(c)?, parse_number(b)?, parse_number(p)?);
    Some(Kind::TwoWay(TwoWay { c, b, p, set: parse_set(set)?, memory }))
}

pub fn show_case(case: &Case) -> String {
    match case {
        Case::Suffix { word, greater } => format!("msuf {} {}", show_word(word), *greater as u8),
        Case::ReverseSuffix { word, known, greater } => {
            format!("rmsuf {} {known} {}", show_word(word), *greater as u8)
        }
        Case::Prepare { needle, n, mode } => {
            format!("prep {} {n} {}", show_word(needle), mode_letter(*mode))
        }
        Case::Search { needle, haystack, backward } => {
            let name = if *backward { "rfind" } else { "find" };
            format!("{name} {} {}", show_word(needle), show_word(haystack))
        }
        Case::Call { call, needle, haystack, state } => {
            let (name, state) = (call_name(*call), show_state(state));
            format!("{name} {} {} {state}", show_word(needle), show_word(haystack))
        }
        Case::Walk { needle, haystack, mode, script } => {
            let script: String = script.iter().map(|&call| call_letter(call) as char).collect();
            let (needle, haystack) = (show_word(needle), show_word(haystack));
            format!("walk {needle} {haystack} {} {script}", mode_letter(*mode))
        }
    }
}

pub fn show_word(word: &[u8]) -> String {
    if word.is_empty() {
        return "-".to_string();
    }
    word.iter().fold(String::with_capacity(2 * word.len()), |mut text, byte| {
        write!(text, "{byte:02x}").expect("a String takes all that is written");
        text
    })
}

pub fn show_state(state: &State) -> String {
    let State { m, n, position, end, mode, kind } = state;
    let start = format!("{m}:{n}:{position}:{end}:{}", mode_letter(*mode));
    match kind {
        Kind::Empty { forward, backward } => {
            format!("E:{start}:{}:{}", *forward as u8, *backward as u8)
        }
        Kind::TwoWay(TwoWay { c, b, p, set, memory: Memory::Long }) => {
            format!("L:{start}:{c}:{b}:{p}:{set:016x}")
        }
        Kind::TwoWay(TwoWay { c, b, p, set, memory: Memory::Short { forward, backward } }) => {
            format!("S:{start}:{c}:{b}:{p}:{set:016x}:{forward}:{backward}")
        }
    }
}

fn show_answer(answer: &Answer) -> String {
    match answer {
        Answer::Match(a, b) => format!("match:{a}:{b}"),
        Answer::Reject(a, b) => format!("reject:{a}:{b}"),
        Answer::Done => "done".to_string(),
        Answer::None => "none".to_string(),
        Answer::Refused(number) => format!("ref:{number}"),
    }
}

pub fn show_reply(reply: &Reply) -> String {
    match reply {
        Reply::Suffix { start, period, rounds } => format!("ok {start} {period} {rounds}"),
        Reply::ReverseSuffix { start, rounds } => format!("ok {start} {rounds}"),
        Reply::Prepared { state, preparing } => format!("ok {} {preparing}", show_state(state)),
        Reply::Found { position, counts } => {
            let place = position.map_or("none".to_string(), |place| format!("at:{place}"));
            format!("{place} {} {} {}", counts.preparing, counts.comparisons, counts.tests)
        }
        Reply::Called(Called { answer, state, counts }) => {
            let (answer, state) = (show_answer(answer), show_state(state));
            format!("{answer} {state} {} {}", counts.comparisons, counts.tests)
        }
        Reply::Walked { preparing, calls, state } => {
            let calls: String = calls.iter().map(show_called).collect();
            format!("ok {preparing} {calls}{}", show_state(state))
        }
        Reply::Refused(number) => format!("ref:{number}"),
    }
}

/// With the space that parts it from what follows.
fn show_called((answer, counts): &(Answer, Counts)) -> String {
    format!("{}/{}/{} ", show_answer(answer), counts.comparisons, counts.tests)
}
