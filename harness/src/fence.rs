//! Bytes at the edge of memory that can't be read.

use std::ffi::{c_int, c_void};
use std::ptr;

extern "C" {
    fn mmap(
        at: *mut c_void,
        length: usize,
        access: c_int,
        flags: c_int,
        file: c_int,
        offset: i64,
    ) -> *mut c_void;
    fn mprotect(at: *mut c_void, length: usize, access: c_int) -> c_int;
    fn signal(number: c_int, handler: extern "C" fn(c_int)) -> usize;
    fn write(file: c_int, bytes: *const c_void, count: usize) -> isize;
    fn _exit(status: c_int) -> !;
}

// Linux on x86-64, where the C library runs.
const PAGE: usize = 4096;
const NO_ACCESS: c_int = 0;
const READ_WRITE: c_int = 3;
const PRIVATE_ANONYMOUS: c_int = 0x22;
const SEGMENTATION_FAULT: c_int = 11;
const STANDARD_OUTPUT: c_int = 1;

/// The most bytes that a fence holds.
const ROOM: usize = 1 << 20;

/// Points to `ROOM` bytes between two pages that can't be read.
pub struct Fence(*mut u8);

impl Default for Fence {
    fn default() -> Fence {
        Fence::new()
    }
}

impl Fence {
    pub fn new() -> Fence {
        // New memory that nothing else has, and its inner part opened.
        let start = unsafe {
            let length = ROOM + 2 * PAGE;
            let all = mmap(ptr::null_mut(), length, NO_ACCESS, PRIVATE_ANONYMOUS, -1, 0);
            assert!(all as isize != -1, "no memory for a fence");
            let start = all.cast::<u8>().add(PAGE);
            assert!(mprotect(start.cast(), ROOM, READ_WRITE) == 0, "a fence that can't be opened");
            start
        };
        Fence(start)
    }

    /// So many bytes with the last of them so far before the edge, or the first so far behind it.
    pub fn part(&mut self, length: usize, away: usize, last: bool) -> &mut [u8] {
        let room = unsafe { std::slice::from_raw_parts_mut(self.0, ROOM) };
        let start = if last { ROOM - length - away } else { away };
        &mut room[start..start + length]
    }

    /// A copy of the bytes that ends at the edge, or starts there.
    pub fn holding(&mut self, bytes: &[u8], last: bool) -> &[u8] {
        let place = self.part(bytes.len(), 0, last);
        place.copy_from_slice(bytes);
        place
    }
}

/// Has a read past an edge reported as a difference; otherwise it ends the program without a word.
pub fn report() {
    unsafe { signal(SEGMENTATION_FAULT, outside) };
}

extern "C" fn outside(_: c_int) {
    const SAID: &[u8] = b"DIFFERENCE: a byte outside of a text or a pattern was read\n";
    unsafe {
        write(STANDARD_OUTPUT, SAID.as_ptr().cast(), SAID.len());
        _exit(1);
    }
}
