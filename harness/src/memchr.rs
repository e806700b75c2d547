//! Stands in for the crate `memchr`, which the original calls for one byte: plain scans, as the
//! port has them.

#![no_std]

pub fn memchr(x: u8, text: &[u8]) -> Option<usize> {
    text.iter().position(|&y| x == y)
}

pub fn memrchr(x: u8, text: &[u8]) -> Option<usize> {
    text.iter().rposition(|&y| x == y)
}
