//! The C functions of `include/twoway.h`, safe to call from Rust.

use crate::limits::*;

// The library is found where each program is linked, so that `differ-break` can link another.
#[link(name = "twoway", kind = "static", modifiers = "-bundle")]
extern "C" {
    fn twoway_find(text: *const u8, n: usize, pattern: *const u8, m: usize) -> u64;
    fn twoway_rfind(text: *const u8, n: usize, pattern: *const u8, m: usize) -> u64;
}

#[derive(Clone, Copy, Debug, PartialEq, Eq)]
pub enum Found {
    At(usize),
    Nothing,
    Refused(u8),
}

/// The first occurrence of `pattern` in `text`.
#[inline]
pub fn find(text: &[u8], pattern: &[u8]) -> Found {
    search(false, text, pattern, std::ptr::dangling())
}

/// The last occurrence of `pattern` in `text`.
#[inline]
pub fn rfind(text: &[u8], pattern: &[u8]) -> Found {
    search(true, text, pattern, std::ptr::dangling())
}

/// Either, with the pointer that is passed for an empty slice. It is not read, so it may be
/// any, null too.
#[inline]
pub fn search(backward: bool, text: &[u8], pattern: &[u8], empty: *const u8) -> Found {
    let start = |slice: &[u8]| if slice.is_empty() { empty } else { slice.as_ptr() };
    let function = if backward { twoway_rfind } else { twoway_find };
    // The functions read the slices' bytes, write nothing and keep no pointer.
    found(unsafe { function(start(text), text.len(), start(pattern), pattern.len()) })
}

#[inline]
fn found(answer: u64) -> Found {
    match answer {
        NONE_CODE => Found::Nothing,
        HAYSTACK_CODE => Found::Refused(HAYSTACK_TOO_LONG),
        NEEDLE_CODE => Found::Refused(NEEDLE_TOO_LONG),
        position => Found::At(position as usize),
    }
}
