//! The generator's own stream: the same jobs for the same seeds.

pub struct Rng(u64);

impl Rng {
    pub fn new(stream: u64, seed: u64) -> Self {
        let mut rng = Rng(stream.wrapping_mul(0x9e37_79b9_7f4a_7c15) ^ seed);
        rng.bits();
        rng.0 ^= seed.rotate_left(32);
        rng
    }

    pub fn bits(&mut self) -> u64 {
        self.0 = self.0.wrapping_add(0x9e37_79b9_7f4a_7c15);
        let mut z = self.0;
        z = (z ^ (z >> 30)).wrapping_mul(0xbf58_476d_1ce4_e5b9);
        z = (z ^ (z >> 27)).wrapping_mul(0x94d0_49bb_1331_11eb);
        z ^ (z >> 31)
    }

    /// A number of `least..=most`.
    pub fn between(&mut self, least: i64, most: i64) -> i64 {
        least + (self.bits() % (most - least + 1) as u64) as i64
    }

    pub fn index(&mut self, length: usize) -> usize {
        (self.bits() % length as u64) as usize
    }

    pub fn one_in(&mut self, n: u64) -> bool {
        self.bits().is_multiple_of(n)
    }

    pub fn pick<T: Copy>(&mut self, choices: &[T]) -> T {
        choices[self.index(choices.len())]
    }

    /// A float of `0..1`.
    pub fn unit(&mut self) -> f64 {
        (self.bits() >> 11) as f64 / (1u64 << 53) as f64
    }

    /// A whole number whose size is spread over the powers of two.
    pub fn scale(&mut self, least: i64, most: i64) -> i64 {
        let doublings = (most / least).ilog2();
        let low = least << self.between(0, i64::from(doublings));
        self.between(low, (2 * low).min(most))
    }
}
