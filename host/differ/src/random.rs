//! A deterministic generator (SplitMix64) and the seed it starts from.

use std::env;

/// The seed of every run, unless the environment gives another.
pub const SEED: u64 = 1;

/// The variable that gives another seed.
pub const SEED_VARIABLE: &str = "DIFFER_SEED";

/// The seed that the environment gives, or [`SEED`].
pub fn seed() -> Result<u64, String> {
    match env::var_os(SEED_VARIABLE) {
        None => Ok(SEED),
        Some(text) => read_seed(&text.to_string_lossy()),
    }
}

/// Reads a seed in decimal, or in hexadecimal after `0x`.
pub fn read_seed(text: &str) -> Result<u64, String> {
    let read = match text.strip_prefix("0x") {
        Some(digits) => u64::from_str_radix(digits, 16),
        None => text.parse(),
    };
    read.map_err(|error| {
        format!(
            "{SEED_VARIABLE} is `{text}` ({error}); expected a number from 0 to {}, in decimal or \
             in hexadecimal after 0x",
            u64::MAX
        )
    })
}

#[derive(Debug, Clone)]
pub struct Random {
    state: u64,
}

impl Random {
    pub fn new(seed: u64) -> Self {
        Self { state: seed }
    }

    /// A generator for one run: it depends on the seed and the run's name
    /// alone, so that a run alone sees the same cases as among others.
    pub fn for_run(seed: u64, name: &str) -> Self {
        let mut random = Self::new(seed);
        for byte in name.bytes() {
            random.state = random.next() ^ u64::from(byte);
        }
        random
    }

    /// Any 64 bits. Also a seed for an input that is made later.
    #[allow(clippy::should_implement_trait)]
    pub fn next(&mut self) -> u64 {
        self.state = self.state.wrapping_add(0x9E37_79B9_7F4A_7C15);
        let mut mixed = self.state;
        mixed = (mixed ^ (mixed >> 30)).wrapping_mul(0xBF58_476D_1CE4_E5B9);
        mixed = (mixed ^ (mixed >> 27)).wrapping_mul(0x94D0_49BB_1331_11EB);
        mixed ^ (mixed >> 31)
    }

    /// A number below `bound`, which is not 0.
    pub fn below(&mut self, bound: u64) -> u64 {
        // The upper half of the product: even enough for bounds far below 2^64.
        ((u128::from(self.next()) * u128::from(bound)) >> 64) as u64
    }

    /// A number from `low` to `high`, both included.
    pub fn between(&mut self, low: u64, high: u64) -> u64 {
        low + self.below(high - low + 1)
    }

    /// True in one of `count` cases.
    pub fn one_in(&mut self, count: u64) -> bool {
        self.below(count) == 0
    }

    pub fn pick<'a, T>(&mut self, choices: &'a [T]) -> &'a T {
        &choices[self.below(choices.len() as u64) as usize]
    }

    pub fn bytes(&mut self, count: usize) -> Vec<u8> {
        let mut bytes = Vec::with_capacity(count + 7);
        while bytes.len() < count {
            bytes.extend(self.next().to_le_bytes());
        }
        bytes.truncate(count);
        bytes
    }

    /// One of the boundaries, or at most two off it.
    pub fn near(&mut self, boundaries: &[u64]) -> u64 {
        let offset = self.below(5) as i64 - 2;
        self.pick(boundaries).saturating_add_signed(offset)
    }

    /// One of the boundaries, or the next float on either side of it.
    pub fn near_float(&mut self, boundaries: &[f32]) -> f32 {
        let boundary = *self.pick(boundaries);
        match self.below(3) {
            0 => boundary.next_down(),
            1 => boundary,
            _ => boundary.next_up(),
        }
    }

    /// A float of any bits: also infinities, NaNs and numbers next to 0.
    pub fn any_float(&mut self) -> f32 {
        f32::from_bits(self.next() as u32)
    }
}
