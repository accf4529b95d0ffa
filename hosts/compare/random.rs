//! Pseudorandom numbers from a seed, by SplitMix64.

pub struct Random(u64);

impl Random {
    pub fn new(seed: u64) -> Random {
        Random(seed)
    }

    pub fn bits(&mut self) -> u64 {
        self.0 = self.0.wrapping_add(0x9E37_79B9_7F4A_7C15);
        let mut z = self.0;
        z = (z ^ z >> 30).wrapping_mul(0xBF58_476D_1CE4_E5B9);
        z = (z ^ z >> 27).wrapping_mul(0x94D0_49BB_1331_11EB);
        z ^ z >> 31
    }

    /// From 0 to this number, without it.
    pub fn below(&mut self, end: usize) -> usize {
        (u128::from(self.bits()) * end as u128 >> 64) as usize
    }

    /// From the first number to the last.
    pub fn from(&mut self, first: usize, last: usize) -> usize {
        first + self.below(last + 1 - first)
    }

    /// So many times in a hundred.
    pub fn chance(&mut self, percent: usize) -> bool {
        self.below(100) < percent
    }

    pub fn word(&mut self) -> u32 {
        (self.bits() >> 32) as u32
    }

    pub fn one<T: Copy>(&mut self, of: &[T]) -> T {
        of[self.below(of.len())]
    }

    /// From 1 to `most`: mostly small, seldom anything.
    pub fn size(&mut self, most: usize) -> usize {
        let end = match self.below(100) {
            0..=69 => 8,
            70..=89 => 24,
            90..=96 => 130,
            _ => most,
        };
        self.from(1, end.min(most))
    }

    /// So many different numbers from 1 to `most`, rising.
    pub fn different(&mut self, count: usize, most: usize) -> Vec<usize> {
        let mut all: Vec<usize> = (1..=most).collect();
        for i in 0..count.min(most) {
            let other = self.from(i, most - 1);
            all.swap(i, other);
        }
        all.truncate(count);
        all.sort_unstable();
        all
    }

    pub fn words(&mut self, count: usize) -> Vec<u32> {
        (0..count).map(|_| self.word()).collect()
    }
}
