//! What the engine uses of Rattle's library and Rust's does not have: memory that is handed over and may run out, a text
//! that is made in it, a formatter that names its writer's type, and the cast of a number by its name.

pub mod fmt;
pub mod string;

pub use shim_macros::{write, writeln};

pub mod alloc {
    /// The heap that a text is made in: Rust's own.
    pub struct Global;

    /// Want of memory, which Rust ends a program for.
    #[derive(Debug)]
    pub struct AllocError;
}

pub mod error {
    /// Rust's asks for Rust's formatting.
    pub trait Error {}
}

pub mod num {
    pub fn saturating_f64_to_i32(x: f64) -> i32 {
        x as i32
    }
}
