//! States to hand in: all that fit two small lengths, seeded ones, and broken ones.

use crate::case::*;
use crate::words::Dice;

/// Short, with no byte in its set.
fn short(m: usize) -> TwoWay {
    TwoWay { c: 0, b: m, p: m, set: 0, memory: Memory::Short { forward: 0, backward: m } }
}

fn long(m: usize, c: usize) -> TwoWay {
    TwoWay { c, b: c, p: c.max(m - c) + 1, set: 0, memory: Memory::Long }
}

/// A state at the start, Short and with no byte in its set; it fits if m is not 0.
pub fn at_start(m: usize, n: usize, mode: Mode) -> State {
    State { m, n, position: 0, end: n, mode, kind: Kind::TwoWay(short(m)) }
}

/// Every way of splits and memory that fits a needle of m bytes.
fn all_splits(m: usize) -> Vec<TwoWay> {
    let mut all: Vec<TwoWay> = (1..m).map(|c| long(m, c)).collect();
    for p in 1..=m {
        for (c, b) in (0..p).flat_map(|c| (m - p + 1..=m).map(move |b| (c, b))) {
            for (forward, backward) in [(0, m), (m - p, m), (0, p), (m - p, p)] {
                let memory = Memory::Short { forward, backward };
                all.push(TwoWay { c, b, p, set: 0, memory });
            }
        }
    }
    // With p = m there is one memory.
    all.dedup();
    all
}

/// Every fitting state with that byteset, in both modes; an empty needle's have no byteset.
pub fn all_fitting(m: usize, n: usize, set: u64) -> impl Iterator<Item = State> {
    let cursors = (0..=n).flat_map(move |position| (0..=n).map(move |end| (position, end)));
    let kinds: Vec<Kind> = if m == 0 {
        let flags = [(false, false), (false, true), (true, false), (true, true)];
        flags.map(|(forward, backward)| Kind::Empty { forward, backward }).to_vec()
    } else {
        all_splits(m).into_iter().map(|splits| Kind::TwoWay(TwoWay { set, ..splits })).collect()
    };
    cursors.flat_map(move |(position, end)| {
        let state = |&kind| Mode::ALL.map(|mode| State { m, n, position, end, mode, kind });
        kinds.iter().flat_map(state).collect::<Vec<State>>()
    })
}

/// A seeded fitting state; its splits belong to no bytes in particular.
pub fn any_fitting(dice: &mut Dice, m: usize, n: usize, mode: Mode, set: u64) -> State {
    let (position, end) = (dice.between(0, n), dice.between(0, n));
    State { m, n, position, end, mode, kind: any_kind(dice, m, set) }
}

fn any_kind(dice: &mut Dice, m: usize, set: u64) -> Kind {
    if m == 0 {
        let (forward, backward) = (dice.pick(&[false, true]), dice.pick(&[false, true]));
        return Kind::Empty { forward, backward };
    }
    if m > 1 && dice.between(0, 3) == 0 {
        let c = dice.between(1, m - 1);
        return Kind::TwoWay(TwoWay { set, ..long(m, c) });
    }
    let p = dice.between(1, m);
    let (c, b) = (dice.between(0, p - 1), dice.between(m - p + 1, m));
    let (forward, backward) = (dice.pick(&[0, m - p]), dice.pick(&[m, p]));
    Kind::TwoWay(TwoWay { c, b, p, set, memory: Memory::Short { forward, backward } })
}

/// The state with one number replaced, for every number but the byteset, by its neighbours,
/// by bounds that may just not hold, and by the largest. Some of them still fit.
pub fn with_one_change(state: &State) -> Vec<State> {
    let State { m, n, kind, .. } = *state;
    let p = match kind {
        Kind::TwoWay(two_way) => two_way.p,
        Kind::Empty { .. } => 0,
    };
    let mut changed = Vec::new();
    for field in 0..numbers(&mut state.clone()).len() {
        let old = *numbers(&mut state.clone())[field];
        let mut values =
            vec![old.wrapping_sub(1), old + 1, 0, m - p, p, m, m + 1, n, n + 1, usize::MAX];
        values.sort();
        values.dedup();
        for value in values.into_iter().filter(|&value| value != old) {
            let mut copy = *state;
            *numbers(&mut copy)[field] = value;
            changed.push(copy);
        }
    }
    changed
}

/// Every number of the state but the byteset.
fn numbers(state: &mut State) -> Vec<&mut usize> {
    let State { m, n, position, end, kind, mode: _ } = state;
    let mut numbers = vec![m, n, position, end];
    if let Kind::TwoWay(TwoWay { c, b, p, memory, .. }) = kind {
        numbers.extend([c, b, p]);
        if let Memory::Short { forward, backward } = memory {
            numbers.extend([forward, backward]);
        }
    }
    numbers
}
