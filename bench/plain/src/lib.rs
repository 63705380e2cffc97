//! The engine's definitions in plain Rust, written from docs/: the yardstick of its speed. Nothing here is proved.

pub mod arithmetic;
pub mod cards;
pub mod graph;
pub mod key;
pub mod refusal;
pub mod replay;
pub mod sheet;
pub mod step;
pub mod words;
