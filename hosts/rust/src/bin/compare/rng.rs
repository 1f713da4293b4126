//! Random numbers by splitmix64: a seed gives the same numbers everywhere.

pub struct Rng(u64);

impl Rng {
    pub fn new(seed: u64) -> Rng {
        Rng(seed)
    }

    /// The numbers of the `n`th sheet under a seed.
    pub fn of(seed: u64, n: u64) -> Rng {
        let mut r = Rng(seed);
        Rng(r.next() ^ n.wrapping_mul(0xD6E8_FEB8_6659_FD93))
    }

    pub fn next(&mut self) -> u64 {
        self.0 = self.0.wrapping_add(0x9E37_79B9_7F4A_7C15);
        let mut z = self.0;
        z = (z ^ (z >> 30)).wrapping_mul(0xBF58_476D_1CE4_E5B9);
        z = (z ^ (z >> 27)).wrapping_mul(0x94D0_49BB_1331_11EB);
        z ^ (z >> 31)
    }

    /// Below `n`, which is not 0.
    pub fn below(&mut self, n: usize) -> usize {
        (self.next() % n as u64) as usize
    }

    /// From `least` to `most`, both included.
    pub fn from(&mut self, least: usize, most: usize) -> usize {
        least + self.below(most - least + 1)
    }

    /// True in `n` of 100 cases.
    pub fn percent(&mut self, n: usize) -> bool {
        self.below(100) < n
    }

    pub fn choice<T: Copy>(&mut self, of: &[T]) -> T {
        of[self.below(of.len())]
    }

    pub fn shuffle<T>(&mut self, of: &mut [T]) {
        for k in (1..of.len()).rev() {
            of.swap(k, self.below(k + 1));
        }
    }
}

/// One of the options, which alone is evaluated.
macro_rules! pick {
    ($r:expr; $($option:expr),+ $(,)?) => {{
        let chosen = $r.below([$(stringify!($option)),+].len());
        let mut at = 0..;
        loop {
            $(if at.next() == Some(chosen) { break $option; })+
        }
    }};
}
pub(crate) use pick;
