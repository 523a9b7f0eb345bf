//! What the programs share, and the inputs of the calls that are measured.

pub mod answers;
pub mod hostile;
pub mod inputs;
pub mod library;
pub mod stack;

/// A small generator (xorshift, 64 bits) with a fixed seed, so that every run has the same inputs.
pub struct Random(u64);

impl Default for Random {
    fn default() -> Self {
        Self::new()
    }
}

impl Random {
    pub fn new() -> Self {
        Random(0x0123_4567_89ab_cdef)
    }

    pub fn next(&mut self) -> u64 {
        self.0 ^= self.0 << 13;
        self.0 ^= self.0 >> 7;
        self.0 ^= self.0 << 17;
        self.0
    }

    pub fn bytes(&mut self, length: usize) -> Vec<u8> {
        (0..length).map(|_| (self.next() >> 32) as u8).collect()
    }
}
