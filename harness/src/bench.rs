//! Times find and rfind against the Rust with plain scans, against glibc (of one byte `memchr` and
//! `memrchr`, of more `memmem`, which searches forward only), and against the crate memchr.
//!
//! The long texts don't hold their needle, so all 64 MiB are walked. Short ones are searched for one
//! byte, which stands nowhere in them, or somewhere: 16 million searches in texts of three lengths
//! in turn, 4 million in texts of each, and 4,096 in one of 16 KiB, which stays in the cache. In
//! other rows one byte is searched for again behind each hit. Each round times every row of the
//! table once, the searchers of a row in turn; the best of the rounds counts. Prints milliseconds
//! and ratios, and what is left out; status 1 if a searcher gives another place.

use harness::case::Word;
use harness::limits::HAYSTACK_BOUND;
use harness::original::{self, Search};
use harness::port::{self, Found};
use harness::program;
use harness::words::{self, Dice};
use std::ffi::{c_int, c_long};
use std::hint::black_box;
use std::process::ExitCode;

extern "C" {
    fn memmem(text: *const u8, n: usize, pattern: *const u8, m: usize) -> *const u8;
    fn memchr(text: *const u8, x: c_int, n: usize) -> *const u8;
    fn memrchr(text: *const u8, x: c_int, n: usize) -> *const u8;
    fn clock() -> c_long;
}

const ROUNDS: usize = 11;
const SEED: u64 = 64;

/// The byte that stands nowhere in the trace.
const ABSENT: u8 = 0xee;

/// The lengths of short texts, so many texts of them, and how often these are searched.
const SHORT: [(&[usize], usize, usize); 5] = [
    (&[5, 16, 40], 1000, 16_000),
    (&[5], 1000, 4_000),
    (&[16], 1000, 4_000),
    (&[40], 1000, 4_000),
    (&[16_384], 1, 4_096),
];

/// Bytes of the trace to list: one that stands in every header, and the one that is most frequent.
const LISTED: [u8; 2] = [0xa5, 0x00];
const LISTED_IN: usize = 1 << 24;

/// What is timed, if it can search for a needle of m bytes in that direction.
struct Searcher {
    name: &'static str,
    way: fn(m: usize, backward: bool) -> Option<Search>,
}

/// One needle in some texts one way, so often, once in a text or again behind each hit; with the sum
/// of the places that are to be found in one pass over the texts, and the best time of each searcher
/// in milliseconds.
struct Row<'a> {
    name: String,
    texts: Vec<&'a [u8]>,
    times: usize,
    all: bool,
    needle: Word,
    backward: bool,
    wanted: usize,
    best: Vec<Option<f64>>,
}

fn main() -> ExitCode {
    let dice = &mut Dice::new(SEED);
    let (trace, run) = (trace(dice), words::power(b"a", HAYSTACK_BOUND));
    let shorts = shorts(&trace, dice);
    let mut rows = rows(&trace, &run);
    rows.extend(shorts.iter().flat_map(Short::rows));
    rows.extend(LISTED.iter().flat_map(|&byte| listed(&trace[..LISTED_IN], byte)));
    let searchers = searchers();
    let mut wrong = false;
    for _ in 0..ROUNDS {
        wrong |= rows.iter_mut().fold(false, |wrong, row| row.time(&searchers) | wrong);
    }
    print_head(&searchers);
    rows.iter().for_each(Row::print);
    print_left_out();
    if wrong {
        println!("DIFFERENCE: a searcher gives another place");
    }
    program::status(!wrong)
}

/// Those that are at hand, ours first.
fn searchers() -> Vec<Searcher> {
    let mut searchers = vec![
        Searcher { name: "ours", way: |_, backward| Some(if backward { rfind } else { find }) },
        Searcher { name: "Rust", way: |_, backward| original::search(backward) },
        Searcher { name: "glibc", way: glibc },
        Searcher { name: "memchr 2.5", way: |_, backward| memchr_crate(backward) },
    ];
    searchers.retain(|searcher| (searcher.way)(1, false).is_some());
    searchers
}

fn find(text: &[u8], needle: &[u8]) -> Option<usize> {
    place(port::find(text, needle))
}

fn rfind(text: &[u8], needle: &[u8]) -> Option<usize> {
    place(port::rfind(text, needle))
}

fn place(found: Found) -> Option<usize> {
    match found {
        Found::At(place) => Some(place),
        _ => None,
    }
}

fn glibc(m: usize, backward: bool) -> Option<Search> {
    match (m, backward) {
        (1, false) => Some(|text, x| {
            at(text, unsafe { memchr(text.as_ptr(), c_int::from(x[0]), text.len()) })
        }),
        (1, true) => Some(|text, x| {
            at(text, unsafe { memrchr(text.as_ptr(), c_int::from(x[0]), text.len()) })
        }),
        (_, false) => Some(by_memmem),
        (_, true) => None,
    }
}

fn by_memmem(text: &[u8], needle: &[u8]) -> Option<usize> {
    at(text, unsafe { memmem(text.as_ptr(), text.len(), needle.as_ptr(), needle.len()) })
}

/// The place in the text that glibc points to. Its functions read the slices' bytes and no others.
fn at(text: &[u8], found: *const u8) -> Option<usize> {
    (!found.is_null()).then(|| found as usize - text.as_ptr() as usize)
}

/// The crate memchr's search, if its source was at hand when this was built.
#[cfg(memchr_crate)]
fn memchr_crate(backward: bool) -> Option<Search> {
    extern crate memchr_crate;
    Some(if backward { memchr_crate::memmem::rfind } else { memchr_crate::memmem::find })
}

#[cfg(not(memchr_crate))]
fn memchr_crate(_: bool) -> Option<Search> {
    None
}

fn print_head(searchers: &[Searcher]) {
    let times = searchers.iter().map(|searcher| format!("{}, ms", searcher.name));
    let ratios = searchers[1..].iter().map(|searcher| format!("ours/{}", searcher.name));
    let columns: Vec<String> = times.chain(ratios).collect();
    println!("| text | needle | direction | {} |", columns.join(" | "));
    println!("|---|---|---|{}", "---|".repeat(columns.len()));
}

fn print_left_out() {
    if let Some(folder) = program::NO_ORIGINAL {
        println!("Rust is left out: {folder}/src/lib.rs is missing (TWOWAY_SRC names its folder)");
    }
    if let Some(folder) = program::NO_MEMCHR {
        print!("memchr 2.5 is left out: {folder}/src/lib.rs is missing ");
        println!("(Debian: librust-memchr-dev; MEMCHR_SRC names another folder)");
    }
}

fn rows<'a>(trace: &'a [u8], run: &'a [u8]) -> Vec<Row<'a>> {
    let mut rows = Vec::new();
    for m in [1, 4, 32, 4096] {
        let needle = foreign(trace, m);
        rows.push(Row::long("trace", trace, needle.clone(), false));
        rows.push(Row::long("trace", trace, needle, true));
    }
    // "a…ab", and backward "ba…a".
    for m in [4, 32, 4096] {
        let mut needle = words::power(b"a", m);
        needle[m - 1] = b'b';
        rows.push(Row::long("a…a", run, needle.clone(), false));
        needle.reverse();
        rows.push(Row::long("a…a", run, needle, true));
    }
    rows
}

/// Short texts behind one another, of these lengths in turn.
struct Short {
    lengths: &'static [usize],
    texts: usize,
    times: usize,
    hit: bool,
    bytes: Word,
}

/// Pieces of the trace, and the same with the absent byte at some place of each.
fn shorts(trace: &[u8], dice: &mut Dice) -> Vec<Short> {
    let mut shorts = Vec::new();
    for (lengths, texts, times) in SHORT {
        let size = lengths.iter().cycle().take(texts).sum();
        let mut bytes = trace[..size].to_vec();
        shorts.push(Short { lengths, texts, times, hit: false, bytes: bytes.clone() });
        let mut start = 0;
        for length in lengths.iter().cycle().take(texts) {
            bytes[start + dice.between(0, length - 1)] = ABSENT;
            start += length;
        }
        shorts.push(Short { lengths, texts, times, hit: true, bytes });
    }
    shorts
}

impl Short {
    fn texts(&self) -> Vec<&[u8]> {
        let mut rest = &self.bytes[..];
        let cut = |&length| {
            let (text, behind) = rest.split_at(length);
            rest = behind;
            text
        };
        self.lengths.iter().cycle().take(self.texts).map(cut).collect()
    }

    fn rows(&self) -> [Row<'_>; 2] {
        let lengths: Vec<String> = self.lengths.iter().map(usize::to_string).collect();
        let hit = if self.hit { "somewhere" } else { "nowhere" };
        let place = |text: &&[u8]| text.iter().position(|byte| *byte == ABSENT);
        let texts = self.texts();
        let wanted = texts.iter().filter_map(place).map(|place| place + 1).sum();
        [false, true].map(|backward| Row {
            name: format!("{} bytes, {hit}", lengths.join(", ")),
            texts: texts.clone(),
            times: self.times,
            all: false,
            needle: vec![ABSENT],
            backward,
            wanted,
            best: Vec::new(),
        })
    }
}

/// One byte again and again in what is left behind the hit before, both ways.
fn listed(text: &[u8], byte: u8) -> [Row<'_>; 2] {
    [false, true].map(|backward| {
        let (name, needle) = (format!("trace, every {byte:02x}"), vec![byte]);
        let mut row = Row::long(&name, text, needle, backward);
        row.all = true;
        let (mut from, mut wanted) = (0, 0);
        for place in (0..text.len()).filter(|&place| text[place] == byte) {
            // Forward a place is told from where the search began.
            wanted += place + 1 - if backward { 0 } else { from };
            from = place + 1;
        }
        row.wanted = wanted;
        row
    })
}

impl<'a> Row<'a> {
    /// A row of one long text that does not hold the needle.
    fn long(name: &str, text: &'a [u8], needle: Word, backward: bool) -> Row<'a> {
        let (name, texts, best) = (name.to_string(), vec![text], Vec::new());
        Row { name, texts, times: 1, all: false, needle, backward, wanted: 0, best }
    }

    /// One round. True if a searcher gives another place.
    fn time(&mut self, searchers: &[Searcher]) -> bool {
        let mut best = std::mem::take(&mut self.best);
        best.resize(searchers.len(), None);
        let mut wrong = false;
        for (searcher, best) in searchers.iter().zip(&mut best) {
            if let Some(search) = (searcher.way)(self.needle.len(), self.backward) {
                wrong |= timed(best, || self.places(search)) != self.wanted * self.times;
            }
        }
        self.best = best;
        wrong
    }

    /// The sum of the places that a searcher gives, each counted from one.
    fn places(&self, search: Search) -> usize {
        let mut sum = 0;
        for _ in 0..self.times {
            for text in &self.texts {
                let mut rest = *text;
                while let Some(place) = search(rest, &self.needle) {
                    sum += place + 1;
                    if !self.all {
                        break;
                    }
                    rest = if self.backward { &rest[..place] } else { &rest[place + 1..] };
                }
            }
        }
        sum
    }

    fn print(&self) {
        let ours = self.best[0];
        let times = self.best.iter().map(|best| shown(*best, 1));
        let ratios =
            self.best[1..].iter().map(|best| shown(ours.zip(*best).map(|(x, y)| x / y), 2));
        let numbers: Vec<String> = times.chain(ratios).collect();
        let direction = if self.backward { "backward" } else { "forward" };
        let m = self.needle.len();
        println!("| {} | {m} | {direction} | {} |", self.name, numbers.join(" | "));
    }
}

/// So many digits behind the point, or nothing.
fn shown(number: Option<f64>, digits: usize) -> String {
    number.map_or(String::new(), |number| format!("{number:.digits$}"))
}

/// Makes the best time smaller if this is faster, and hands on what the searches give.
fn timed(best: &mut Option<f64>, searches: impl Fn() -> usize) -> usize {
    // Microseconds that this process has had a processor: others may want it too.
    let now = || unsafe { clock() };
    let start = now();
    let given = black_box(searches());
    let time = (now() - start) as f64 / 1e3;
    *best = Some(best.map_or(time, |best| best.min(time)));
    given
}

/// A piece of the trace with two bytes changed, the first such piece from a third of it on
/// that does not occur; of one byte the absent one.
fn foreign(text: &[u8], m: usize) -> Word {
    if m == 1 {
        return vec![ABSENT];
    }
    let changed = |start: usize| {
        let mut piece = text[start..start + m].to_vec();
        piece[m - 1] ^= 1;
        piece[m / 2] ^= 2;
        piece
    };
    let mut pieces = (text.len() / 3..text.len() - m).map(changed);
    pieces
        .find(|piece| by_memmem(text, piece).is_none())
        .expect("some changed piece does not occur")
}

/// 64 MiB of records as a processor's trace has them: a header that repeats, a kind, a core, a
/// running time stamp, a place in the program that mostly moves on, and up to four values,
/// most of them small.
fn trace(dice: &mut Dice) -> Word {
    const HEADER: [u8; 4] = [0xa5, 0x5a, 0x00, 0x01];
    const KINDS: [u8; 12] =
        [0x10, 0x10, 0x10, 0x10, 0x11, 0x11, 0x12, 0x20, 0x21, 0x30, 0x31, 0x7f];
    let mut text = Vec::with_capacity(HAYSTACK_BOUND + 64);
    let (mut time, mut place) = (0u32, 0x8000_0000u32);
    while text.len() < HAYSTACK_BOUND {
        let kind = dice.pick(&KINDS);
        time = time.wrapping_add(dice.between(1, 200) as u32);
        place = match dice.between(0, 15) {
            0 => 0x8000_0000 + 4 * dice.between(0, 1 << 18) as u32,
            _ => place.wrapping_add(4),
        };
        text.extend(HEADER);
        text.extend([kind, dice.between(0, 3) as u8]);
        text.extend(time.to_le_bytes());
        text.extend(place.to_le_bytes());
        for _ in 0..kind % 5 {
            let any = dice.roll() as u32;
            text.extend(dice.pick(&[0, 1, any % 256, any % 256, any]).to_le_bytes());
        }
    }
    text.truncate(HAYSTACK_BOUND);
    for byte in text.iter_mut().filter(|byte| **byte == ABSENT) {
        *byte = ABSENT + 1;
    }
    text
}
