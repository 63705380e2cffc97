//! The engine's own source without its contracts, compiled as Rust: `../strip.py` writes it into `engine`.

use shim::alloc::Global;
use shim::string::String;

/// The whole key of a card file.
pub fn whole_key(cards: &[u8]) -> String {
    printed_key::whole_key(Global, cards).expect("Rust's own heap tells of no want of memory")
}
