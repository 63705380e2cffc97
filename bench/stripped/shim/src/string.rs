//! A text that is handed its heap.

use crate::alloc::{AllocError, Global};
use crate::fmt::{self, Formatter, Parts, Write};

pub struct String(std::string::String);

impl String {
    pub fn new(_: Global) -> String {
        String(std::string::String::new())
    }

    pub fn with_capacity(_: Global, capacity: usize) -> Result<String, AllocError> {
        Ok(String(std::string::String::with_capacity(capacity)))
    }

    /// What `writeln!` calls.
    pub fn write_fmt(&mut self, parts: impl Parts) -> Result<(), AllocError> {
        let mut formatter = Formatter { writer: self };
        formatter.write_fmt(parts).map_err(|_| AllocError)
    }

    pub fn as_bytes(&self) -> &[u8] {
        self.0.as_bytes()
    }
}

impl Write for &mut String {
    fn write_str(&mut self, text: &str) -> fmt::Result {
        self.0.push_str(text);
        Ok(())
    }
}
