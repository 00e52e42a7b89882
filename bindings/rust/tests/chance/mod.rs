//! Numbers and keys by chance.

/// Numbers and keys by chance.
pub struct Chance(pub u64);

impl Chance {
    /// A number below this one.
    pub fn below(&mut self, bound: u64) -> u64 {
        self.0 ^= self.0 << 13;
        self.0 ^= self.0 >> 7;
        self.0 ^= self.0 << 17;
        self.0 % bound
    }

    /// A key of 1 to 40 bytes, of which many begin alike, in up to five layers.
    pub fn key(&mut self) -> Vec<u8> {
        let alike = self.below(6) * 8;
        (0..1 + self.below(40))
            .map(|at| match at < alike {
                true => b'a',
                false => b"ab\0\xff"[self.below(4) as usize],
            })
            .collect()
    }
}
