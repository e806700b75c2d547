//! A first use from Rust: prints 2 and 7.

use harness::port::{self, Found};

fn main() {
    for found in [port::find(b"xxABxxxAB", b"AB"), port::rfind(b"xxABxxxAB", b"AB")] {
        if let Found::At(position) = found {
            println!("{position}");
        }
    }
}
