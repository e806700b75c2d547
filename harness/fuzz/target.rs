//! A target for libFuzzer: the C functions against the unchanged Rust and against the meaning.
//!
//! An input is the pattern's length in two bytes, the pattern, and the text. Coverage comes
//! from the Rust, which has the same branches: the C library is machine code already. Pattern
//! and text stand at the edge of memory that can't be read, once with their last byte and once
//! with their first, so that a read outside of them ends the run too.

#![no_main]

use harness::fence::Fence;
use harness::port::{self, Found};
use harness::{judge, naive};
use std::cell::RefCell;

thread_local! {
    static FENCES: RefCell<[Fence; 2]> = RefCell::new([Fence::new(), Fence::new()]);
}

/// # Safety
///
/// libFuzzer hands in `size` bytes and leaves them alone during the call.
#[no_mangle]
pub unsafe extern "C" fn LLVMFuzzerTestOneInput(data: *const u8, size: usize) -> i32 {
    let input = if size == 0 { &[] } else { unsafe { std::slice::from_raw_parts(data, size) } };
    let (length, rest) = input.split_at(size.min(2));
    let length = length.iter().fold(0, |length, &byte| length * 256 + usize::from(byte));
    let (pattern, text) = rest.split_at(length % (rest.len() + 1));
    for backward in [false, true] {
        held(text, pattern, backward);
    }
    0
}

/// Panics where the answers differ, which ends the run.
fn held(text: &[u8], pattern: &[u8], backward: bool) {
    let rust = judge::found(pattern, text, backward);
    assert_eq!(rust, naive::meant(pattern, text, backward), "the Rust and the meaning");
    let wanted = rust.map_or(Found::Nothing, Found::At);
    FENCES.with_borrow_mut(|[texts, patterns]| {
        for last in [false, true] {
            let (text, pattern) = (texts.holding(text, last), patterns.holding(pattern, last));
            let search = if backward { port::rfind } else { port::find };
            assert_eq!(search(text, pattern), wanted, "the C function and the Rust");
        }
    });
}
