//! The numbers that document 01 and docs/LINES.md fix. In the harness they stand here only, and in
//! the answers that `examples.rs` quotes.

/// The longest haystack and the longest needle that are not refused, in bytes.
pub const HAYSTACK_BOUND: usize = 67_108_864;
pub const NEEDLE_BOUND: usize = 65_536;

/// The numbers of the refusals. No call gives NEEDLE_EMPTY since 02's request [1]; STEP_OVERLAPPING
/// is a step in overlapping mode, 02's [3].
pub const HAYSTACK_TOO_LONG: u8 = 1;
pub const NEEDLE_TOO_LONG: u8 = 2;
pub const NEEDLE_EMPTY: u8 = 3;
pub const STATE_DOES_NOT_FIT: u8 = 4;
pub const STEP_OVERLAPPING: u8 = 5;

/// What the C functions answer where they have no position: none, refusal 1, refusal 2.
pub const NONE_CODE: u64 = u64::MAX;
pub const HAYSTACK_CODE: u64 = u64::MAX - 1;
pub const NEEDLE_CODE: u64 = u64::MAX - 2;

/// Demand 3: the most that preparing counts for each byte of the needle.
pub const PREPARING_PER_BYTE: usize = 9;

/// The most that a line may ask for. A line of more bytes than these make asks for more.
pub const WORD_BYTES: usize = 4_096;
pub const SCRIPT_LETTERS: usize = 256;
