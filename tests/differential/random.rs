//! Random numbers, all from a seed: splitmix64.

pub struct Random(u64);

impl Random {
    pub fn new(seed: u64) -> Random {
        Random(seed)
    }

    pub fn number(&mut self) -> u64 {
        self.0 = self.0.wrapping_add(0x9e3779b97f4a7c15);
        let x = (self.0 ^ (self.0 >> 30)).wrapping_mul(0xbf58476d1ce4e5b9);
        let x = (x ^ (x >> 27)).wrapping_mul(0x94d049bb133111eb);
        x ^ (x >> 31)
    }

    pub fn below(&mut self, limit: usize) -> usize {
        (self.number() % limit as u64) as usize
    }

    pub fn one_in(&mut self, count: usize) -> bool {
        self.below(count) == 0
    }

    pub fn pick<T: Copy>(&mut self, from: &[T]) -> T {
        from[self.below(from.len())]
    }

    /// Flips one bit, if there is one.
    pub fn flip(&mut self, range: &mut [u8]) {
        if !range.is_empty() {
            range[self.below(range.len())] ^= 1 << self.below(8);
        }
    }

    /// Now and then all zeros, or all ones.
    pub fn bytes(&mut self, length: usize) -> Vec<u8> {
        match self.below(20) {
            0 => vec![0; length],
            1 => vec![255; length],
            _ => (0..(length + 7) / 8)
                .flat_map(|_| self.number().to_le_bytes())
                .take(length)
                .collect(),
        }
    }
}
