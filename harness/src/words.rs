//! Words to try: every word of a length, and seeded ones with structure in them.

use crate::case::Word;
use crate::limits::{SCRIPT_LETTERS, WORD_BYTES};

/// SplitMix64: small, and the same numbers everywhere.
pub struct Dice(u64);

impl Dice {
    pub fn new(seed: u64) -> Dice {
        Dice(seed)
    }

    pub fn roll(&mut self) -> u64 {
        self.0 = self.0.wrapping_add(0x9e37_79b9_7f4a_7c15);
        let mixed = (self.0 ^ self.0 >> 30).wrapping_mul(0xbf58_476d_1ce4_e5b9);
        let mixed = (mixed ^ mixed >> 27).wrapping_mul(0x94d0_49bb_1331_11eb);
        mixed ^ mixed >> 31
    }

    /// Both ends included.
    pub fn between(&mut self, low: usize, high: usize) -> usize {
        low + (self.roll() % (high - low + 1) as u64) as usize
    }

    pub fn pick<T: Copy>(&mut self, from: &[T]) -> T {
        from[self.between(0, from.len() - 1)]
    }
}

const EVERY_BYTE: [u8; 256] = {
    let mut bytes = [0; 256];
    let mut i = 0;
    while i < 256 {
        bytes[i] = i as u8;
        i += 1;
    }
    bytes
};

/// Two, three and 256 letters, and letters that share their low six bits: the fingerprint
/// can't tell 01 from 41 hex.
pub const ALPHABETS: [&[u8]; 5] =
    [b"ab", b"abc", &EVERY_BYTE, &[0x01, 0x41], &[0x01, 0x41, 0x02, 0xc1]];

/// Letters, and the longest word over them.
pub type Letters<'a> = (&'a [u8], usize);

/// Needles and haystacks over letters that the fingerprint can't tell apart, each with its
/// longest length.
pub const ALIKE: (Letters<'static>, Letters<'static>) =
    ((&[0x01, 0x02], 4), (&[0x01, 0x02, 0x41], 7));

/// Lengths of haystacks for an empty needle, where a walk is as long as the haystack: none, one, as
/// many as a script has letters, and as many as a line takes.
pub const EDGES: [usize; 6] =
    [0, 1, SCRIPT_LETTERS - 1, SCRIPT_LETTERS, SCRIPT_LETTERS + 1, WORD_BYTES];

/// All words of one length, in order.
pub fn all(letters: &[u8], len: usize) -> impl Iterator<Item = Word> + '_ {
    let base = letters.len();
    (0..base.pow(len as u32)).map(move |number| {
        let digit = |place: usize| number / base.pow(place as u32) % base;
        (0..len).rev().map(|place| letters[digit(place)]).collect()
    })
}

pub fn up_to(letters: &[u8], longest: usize) -> impl Iterator<Item = Word> + '_ {
    (0..=longest).flat_map(move |len| all(letters, len))
}

/// All needles over some letters in all haystacks over some, each up to a length, the shortest
/// pairs first, so that the first difference is a smallest one.
pub fn pairs<'a>(
    needles: Letters<'a>,
    haystacks: Letters<'a>,
) -> impl Iterator<Item = (Word, Word)> + 'a {
    let lengths = (0..=needles.1 + haystacks.1).flat_map(move |total| {
        let shortest = total.saturating_sub(haystacks.1);
        (shortest..=total.min(needles.1)).map(move |m| (m, total - m))
    });
    lengths.flat_map(move |(m, n)| {
        all(needles.0, m).flat_map(move |needle| {
            all(haystacks.0, n).map(move |haystack| (needle.clone(), haystack))
        })
    })
}

pub fn random(dice: &mut Dice, letters: &[u8], len: usize) -> Word {
    (0..len).map(|_| dice.pick(letters)).collect()
}

/// `root` again and again.
pub fn power(root: &[u8], len: usize) -> Word {
    root.iter().copied().cycle().take(len).collect()
}

/// One byte replaced, if there is one.
fn changed(dice: &mut Dice, letters: &[u8], mut word: Word) -> Word {
    if !word.is_empty() {
        let place = dice.between(0, word.len() - 1);
        word[place] = dice.pick(letters);
    }
    word
}

pub fn fibonacci(letters: [u8; 2], len: usize) -> Word {
    let (mut shorter, mut longer) = (vec![letters[1]], vec![letters[0]]);
    while longer.len() < len {
        let next = [&longer[..], &shorter[..]].concat();
        shorter = std::mem::replace(&mut longer, next);
    }
    longer.truncate(len);
    longer
}

pub fn thue_morse(letters: [u8; 2], len: usize) -> Word {
    (0..len).map(|i| letters[i.count_ones() as usize % 2]).collect()
}

/// A run with an odd end, Fibonacci, Thue-Morse, and a nearly periodic word.
pub fn hard(len: usize) -> [Word; 4] {
    let mut odd_end = power(b"a", len);
    odd_end[len - 1] = b'b';
    let nearly_periodic = power(&odd_end[len / 2 - len / 650..], len);
    [odd_end, fibonacci(*b"ab", len), thue_morse(*b"ab", len), nearly_periodic]
}

/// A needle of some kind that is hard for one searcher or another.
pub fn structured(dice: &mut Dice, letters: &[u8], len: usize) -> Word {
    let two = [dice.pick(letters), dice.pick(letters)];
    let root_len = dice.between(1, len / 2 + 1);
    let root = random(dice, letters, root_len);
    match dice.between(0, 8) {
        0 => fibonacci(two, len),
        1 => thue_morse(two, len),
        2 => power(&two[..1], len),
        3 => changed(dice, letters, power(&two[..1], len)),
        4 | 5 => power(&root, len),
        6 => changed(dice, letters, power(&root, len)),
        _ => random(dice, letters, len),
    }
}

/// A haystack pieced together so that whole needles, parts of it and near misses turn up.
pub fn around(dice: &mut Dice, needle: &[u8], letters: &[u8], len: usize) -> Word {
    let mut word = Word::new();
    while word.len() < len {
        let cut = dice.between(0, needle.len());
        match dice.between(0, 6) {
            0 => word.extend(needle),
            1 => word.extend(&needle[..cut]),
            2 | 3 => word.extend(&needle[cut..]),
            4 => word.extend(changed(dice, letters, needle.to_vec())),
            5 => word.push(dice.pick(letters)),
            _ => word.push(dice.pick(&EVERY_BYTE)),
        }
    }
    word.truncate(len);
    word
}

/// A needle of some kind and a haystack for it, over one of the alphabets.
pub fn pair(dice: &mut Dice, needle_max: usize, haystack_max: usize) -> (Word, Word) {
    let letters = dice.pick(&ALPHABETS);
    let (m, n) = (dice.between(1, needle_max), dice.between(0, haystack_max));
    let needle = structured(dice, letters, m);
    let haystack = around(dice, &needle, letters, n);
    (needle, haystack)
}

/// The longest needle and haystack of each seeded pair: so many small ones, then so many large.
pub fn sizes(small: usize, large: usize) -> impl Iterator<Item = (usize, usize)> {
    std::iter::repeat_n((40, 150), small).chain(std::iter::repeat_n((3000, 20_000), large))
}
