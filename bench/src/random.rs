//! Random numbers that a seed determines (xorshift64*), so that every run has the same tables and addresses.

pub struct Random(u64);

impl Random {
    /// The seed must not be 0, which the generator could not leave.
    pub fn new(seed: u64) -> Random {
        Random(seed)
    }

    pub fn below(&mut self, n: u64) -> u64 {
        self.0 ^= self.0 >> 12;
        self.0 ^= self.0 << 25;
        self.0 ^= self.0 >> 27;
        (self.0.wrapping_mul(0x2545_f491_4f6c_dd1d) >> 11) % n
    }

    pub fn percent(&mut self, n: u64) -> bool {
        self.below(100) < n
    }
}
