//! What the programs of the harness have in common.

pub mod broken;
pub mod case;
pub mod compare;
pub mod examples;
pub mod exhaustive;
pub mod failure;
#[cfg(feature = "port")]
pub mod fence;
pub mod judge;
pub mod limits;
pub mod line;
pub mod list;
pub mod local;
pub mod meaning;
pub mod model;
pub mod naive;
pub mod original;
#[cfg(feature = "port")]
pub mod port;
pub mod program;
pub mod retold;
pub mod scripts;
pub mod states;
pub mod words;

// A state's numbers are usize here and 64 bits wide in the lines.
const _: () = assert!(usize::BITS == 64);
