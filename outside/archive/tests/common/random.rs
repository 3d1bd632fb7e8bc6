//! Random numbers by splitmix64. Each case has its own generator, made from the seed and the
//! case's number, so that a case that failed can be made again alone.

use std::env;

const DEFAULT_SEED: u64 = 0x5EED_0001_CEC0_0001;

/// The increment of splitmix64.
const STEP: u64 = 0x9E37_79B9_7F4A_7C15;

/// The seed: CEC_SEED, decimal or hexadecimal behind 0x, or else the fixed one.
pub fn seed() -> u64 {
    let Ok(text) = env::var("CEC_SEED") else {
        return DEFAULT_SEED;
    };
    let number = match text.strip_prefix("0x") {
        Some(digits) => u64::from_str_radix(digits, 16),
        None => text.parse(),
    };
    number.unwrap_or_else(|_| panic!("CEC_SEED is not a number of 64 bits: {text}"))
}

pub struct Random(u64);

impl Random {
    /// The generator of one case. The case's number is mixed first: neighbours would otherwise be
    /// one sequence, shifted by a place.
    pub fn of_case(seed: u64, case: u64) -> Self {
        Self(seed ^ Self(case).word())
    }

    pub fn word(&mut self) -> u64 {
        self.0 = self.0.wrapping_add(STEP);
        let mixed = (self.0 ^ (self.0 >> 30)).wrapping_mul(0xBF58_476D_1CE4_E5B9);
        let mixed = (mixed ^ (mixed >> 27)).wrapping_mul(0x94D0_49BB_1331_11EB);
        mixed ^ (mixed >> 31)
    }

    /// A number below the bound, which is above 0.
    pub fn below(&mut self, bound: usize) -> usize {
        (self.word() % bound as u64) as usize
    }

    pub fn byte(&mut self) -> u8 {
        self.word() as u8
    }

    pub fn one_in(&mut self, times: usize) -> bool {
        self.below(times) == 0
    }

    pub fn pick<T: Copy>(&mut self, items: &[T]) -> T {
        items[self.below(items.len())]
    }
}

/// splitmix64's published sequence for the start 1234567.
#[test]
fn splitmix64_gives_its_published_numbers() {
    let mut random = Random(1_234_567);
    assert_eq!(random.word(), 6_457_827_717_110_365_317);
    assert_eq!(random.word(), 3_203_168_211_198_807_973);
}
