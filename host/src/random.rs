//! Random numbers that a seed repeats.

/// xorshift64*.
pub struct Random(u64);

impl Random {
    pub fn new(seed: u64) -> Random {
        let mut r = Random(seed.wrapping_mul(0x9E37_79B9_7F4A_7C15) ^ 0xD1B5_4A32_D192_ED03);
        if r.0 == 0 {
            r.0 = 1;
        }
        for _ in 0..8 {
            r.next();
        }
        r
    }
    pub fn next(&mut self) -> u64 {
        self.0 ^= self.0 >> 12;
        self.0 ^= self.0 << 25;
        self.0 ^= self.0 >> 27;
        self.0.wrapping_mul(0x2545_F491_4F6C_DD1D)
    }
    pub fn long(&mut self) -> u32 {
        (self.next() >> 32) as u32
    }
    pub fn word(&mut self) -> u16 {
        (self.next() >> 48) as u16
    }
    pub fn below(&mut self, n: u32) -> u32 {
        ((self.long() as u64 * n as u64) >> 32) as u32
    }
    /// True in `n` of 100.
    pub fn of_100(&mut self, n: u32) -> bool {
        self.below(100) < n
    }
    pub fn pick<T: Copy>(&mut self, from: &[T]) -> T {
        from[self.below(from.len() as u32) as usize]
    }
}
