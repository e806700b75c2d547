//! The counters that `counted.sed` puts into a copy of the original.
//!
//! The unchanged Rust counts nothing, so the model's counts would have nothing to be held
//! against. Each thread has counters of its own, since tests run beside each other.

use std::cell::Cell;
use std::thread::LocalKey;

thread_local! {
    static PREPARING: Cell<u64> = const { Cell::new(0) };
    static COMPARISONS: Cell<u64> = const { Cell::new(0) };
    static TESTS: Cell<u64> = const { Cell::new(0) };
}

#[inline]
fn add_one(counter: &'static LocalKey<Cell<u64>>) {
    counter.set(counter.get() + 1);
}

/// A round of a maximal suffix pass.
#[inline]
pub fn round() {
    add_one(&PREPARING);
}

/// A needle byte is set against a haystack byte.
#[inline]
pub fn pair() {
    add_one(&COMPARISONS);
}

/// The fingerprint is tested.
#[inline]
pub fn test() {
    add_one(&TESTS);
}

/// Equality of two slices of the same length, left to right, each pair counted as preparing.
pub fn equal(left: &[u8], right: &[u8]) -> bool {
    left.iter().zip(right).all(|(x, y)| {
        add_one(&PREPARING);
        x == y
    })
}

pub fn memchr(x: u8, text: &[u8]) -> Option<usize> {
    text.iter().position(|&y| {
        pair();
        x == y
    })
}

pub fn memrchr(x: u8, text: &[u8]) -> Option<usize> {
    text.iter().rposition(|&y| {
        pair();
        x == y
    })
}

/// Preparing, comparisons and tests since the thread's last call, which start again at 0.
pub fn take() -> [u64; 3] {
    [&PREPARING, &COMPARISONS, &TESTS].map(|counter| counter.take())
}
