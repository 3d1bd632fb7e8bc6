//! Simulation: the values of each net on patterns, 64 patterns a word.

use crate::gate::{Gate, Lit, Var};
use crate::miter::Miter;
use crate::random::Random;

/// The patterns tried so far, and what each net is on them.
pub struct Simulation {
    inputs: usize,
    /// Of each net, a word for each 64 patterns.
    rows: Vec<Vec<u64>>,
    signatures: Vec<Signature>,
    random: Random,
}

/// What a function was on the patterns tried.
#[derive(Clone, Copy, Default, PartialEq, Eq)]
pub struct Signature {
    /// A hash of its values, or of its complement's: whichever is 0 on the first pattern.
    pub hash: u64,
    /// Whether it is the complement's.
    pub turned: bool,
    words: usize,
}

impl Signature {
    /// Goes on with 64 patterns.
    fn add(&mut self, word: u64) {
        self.turned |= self.words == 0 && word & 1 == 1;
        self.words += 1;
        let word = word ^ mask(self.turned);
        self.hash = (self.hash.rotate_left(5) ^ word).wrapping_mul(0x517C_C1B7_2722_0A95);
    }
}

impl Simulation {
    /// Of so many nets, on patterns that bring out unlike nets: random ones, ones with few or many
    /// inputs set, and those where one input is unlike all others, which parities and decoders need.
    pub fn new(inputs: usize, gates: &[Gate]) -> Self {
        let mut simulation = Self {
            inputs,
            rows: vec![vec![]; gates.len()],
            signatures: vec![Signature::default(); gates.len()],
            random: Random::of(1),
        };
        for round in 0..24 {
            let word = (0..inputs).map(|_| simulation.biased(round)).collect();
            simulation.add(gates, word);
        }
        for others in [0, u64::MAX] {
            let word = (0..inputs).map(|input| others ^ 1 << input).collect();
            simulation.add(gates, word);
        }
        simulation
    }

    /// A random word in which a half, a quarter, an eighth or all but so many bits are set.
    fn biased(&mut self, round: usize) -> u64 {
        let [a, b, c] = [(); 3].map(|()| self.random.next());
        match (round % 6, round / 8 % 2) {
            (0..=2, _) => a,
            (3, _) => a & b,
            (4, _) => a | b,
            (_, 0) => a & b & c,
            _ => a | b | c,
        }
    }

    /// Tries 64 patterns, given as a word for each input.
    fn add(&mut self, gates: &[Gate], word: Vec<u64>) {
        for (n, &gate) in gates[..self.rows.len()].iter().enumerate() {
            let of = |l: Lit| {
                self.rows[l.var()]
                    .last()
                    .map_or(0, |w| w ^ mask(l.is_complemented()))
            };
            let value = match gate {
                Gate::Leaf if (1..=self.inputs).contains(&n) => word[n - 1],
                Gate::Leaf => 0,
                Gate::And(x, y) => of(x) & of(y),
                Gate::Xor(x, y) => of(x) ^ of(y),
            };
            self.rows[n].push(value);
            self.signatures[n].add(value);
        }
    }

    /// Tries a pattern and 63 near it: a pattern that tells two nets apart is seldom alone.
    pub fn add_near(&mut self, gates: &[Gate], pattern: u64) {
        let mut word: Vec<u64> = (0..self.inputs)
            .map(|k| mask(pattern >> k & 1 == 1))
            .collect();
        for place in 1..64 {
            let flips = if place <= self.inputs {
                1
            } else {
                1 + self.random.next() % 3
            };
            for _ in 0..flips.min(self.inputs as u64) {
                let any = self.random.next() as usize % self.inputs;
                let input = if place <= self.inputs { place - 1 } else { any };
                word[input] ^= 1 << place;
            }
        }
        self.add(gates, word);
    }

    /// The earliest pattern tried on which an output differs.
    pub fn difference(&self, miter: &Miter) -> Option<u64> {
        let (place, word) = miter.differences.iter().find_map(|&z| {
            self.rows[z]
                .iter()
                .copied()
                .enumerate()
                .find(|&(_, word)| word != 0)
        })?;
        let bit = word.trailing_zeros();
        let inputs = (1..=self.inputs).rev();
        Some(inputs.fold(0, |pattern, n| {
            pattern << 1 | self.rows[n][place] >> bit & 1
        }))
    }

    /// The signature of a net.
    pub fn signature(&self, n: Var) -> Signature {
        self.signatures[n]
    }

    /// The signature of the carry of two or three bits.
    pub fn carry_signature(&self, bits: &[Lit]) -> Signature {
        let value = |l: Lit, k: usize| self.rows[l.var()][k] ^ mask(l.is_complemented());
        let mut signature = Signature::default();
        for k in 0..self.rows[0].len() {
            signature.add(match *bits {
                [a, b, c] => {
                    let [a, b, c] = [a, b, c].map(|l| value(l, k));
                    a & b | a & c | b & c
                }
                _ => bits.iter().fold(u64::MAX, |all, &l| all & value(l, k)),
            });
        }
        signature
    }

    /// Whether a XOR b is n on every pattern (no), or its complement is (yes).
    pub fn as_xor(&self, n: Var, a: Var, b: Var) -> Option<bool> {
        let rows = self.rows[n].iter().zip(&self.rows[a]).zip(&self.rows[b]);
        let mut sums = rows.map(|((n, a), b)| n ^ a ^ b);
        let first = sums.next()?;
        ((first == 0 || first == u64::MAX) && sums.all(|sum| sum == first)).then_some(first != 0)
    }
}

/// All ones, or none.
fn mask(set: bool) -> u64 {
    u64::from(set).wrapping_neg()
}
