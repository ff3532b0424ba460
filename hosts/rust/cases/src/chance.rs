//! Chance for the cases: SplitMix64, by the host's own few lines.

#[derive(Clone, Debug)]
pub struct Chance(u64);

impl Chance {
    pub fn new(seed: u64) -> Self {
        Self(seed)
    }

    pub fn word(&mut self) -> u64 {
        self.0 = self.0.wrapping_add(0x9e37_79b9_7f4a_7c15);
        let mut z = self.0;
        z = (z ^ (z >> 30)).wrapping_mul(0xbf58_476d_1ce4_e5b9);
        z = (z ^ (z >> 27)).wrapping_mul(0x94d0_49bb_1331_11eb);
        z ^ (z >> 31)
    }

    /// A number below `n`, which is not 0.
    pub fn below(&mut self, n: usize) -> usize {
        ((u128::from(self.word()) * n as u128) >> 64) as usize
    }

    /// A number from `low` to `high`, both included.
    pub fn between(&mut self, low: usize, high: usize) -> usize {
        low + self.below(high - low + 1)
    }

    /// True once in `n` times.
    pub fn once_in(&mut self, n: usize) -> bool {
        self.below(n) == 0
    }

    pub fn unit(&mut self) -> f64 {
        (self.word() >> 11) as f64 / (1u64 << 53) as f64
    }

    pub fn pick<T: Copy>(&mut self, from: &[T]) -> T {
        from[self.below(from.len())]
    }

    pub fn words<const N: usize>(&mut self) -> [u64; N] {
        std::array::from_fn(|_| self.word())
    }

    /// A generator's four words: mostly any, at times small ones, so that draws repeat and are drawn again.
    pub fn state(&mut self) -> [u64; 4] {
        match self.below(16) {
            0 => std::array::from_fn(|_| self.word() >> 56),
            1 => std::array::from_fn(|_| self.pick(&[0, 1, 1 << 63, u64::MAX])),
            2 => {
                let mut words = self.words();
                words[self.below(4)] = 0;
                words
            }
            _ => self.words(),
        }
    }

    /// Any float: its bits by chance, or one at an end of the floats.
    pub fn float(&mut self) -> f64 {
        match self.below(4) {
            0 => f64::from_bits(self.word()),
            1 => self.pick(&ENDS),
            2 => self.unit() * 4.0,
            _ => -self.pick(&ENDS),
        }
    }
}

/// Floats at which something changes.
const ENDS: [f64; 16] = [
    0.0,
    f64::from_bits(1),
    f64::from_bits(0x000f_ffff_ffff_ffff),
    f64::MIN_POSITIVE,
    1e-300,
    9.999_999_999_999_999e-9,
    1e-8,
    1.000_000_000_000_000_2e-8,
    0.5,
    0.999_999_999_999_999_9,
    1.0,
    1.000_000_000_000_000_2,
    2.0,
    f64::MAX,
    f64::INFINITY,
    f64::NAN,
];
