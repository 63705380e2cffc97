//! Sets of branches as 32-bit words.

pub fn has(word: u32, k: usize) -> bool {
    word >> k & 1 == 1
}

/// The members of a word, ascending.
pub struct Members(pub u32);

impl Iterator for Members {
    type Item = usize;

    fn next(&mut self) -> Option<usize> {
        if self.0 == 0 {
            return None;
        }
        let k = self.0.trailing_zeros();
        self.0 &= self.0 - 1;
        Some(k as usize)
    }
}
