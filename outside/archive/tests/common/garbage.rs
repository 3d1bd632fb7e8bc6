//! What lent memory holds before a call. No element of it is 0, so that each one left behind is
//! seen.

use super::random::Random;

/// Elements on both sides of lent memory, which nobody may write.
const GUARD: usize = 16;

pub fn bytes(random: &mut Random, length: usize) -> Vec<u8> {
    let mut bytes = vec![1; length.next_multiple_of(8)];
    for eight in bytes.chunks_exact_mut(8) {
        let odd = random.word() | 0x0101_0101_0101_0101;
        eight.copy_from_slice(&odd.to_le_bytes());
    }
    bytes.truncate(length);
    bytes
}

pub fn numbers(random: &mut Random, length: usize) -> Vec<u16> {
    let bytes = bytes(random, 2 * length);
    let pairs = bytes.chunks_exact(2);
    pairs
        .map(|pair| u16::from_le_bytes([pair[0], pair[1]]))
        .collect()
}

/// Memory to lend, between guards, all of it garbage.
pub struct Lent<T> {
    memory: Vec<T>,
    /// The guards before it and behind.
    guards: [Vec<T>; 2],
}

impl<T: Copy + PartialEq> Lent<T> {
    /// So many elements, by one of the functions above.
    pub fn new(
        random: &mut Random,
        length: usize,
        garbage: fn(&mut Random, usize) -> Vec<T>,
    ) -> Self {
        let memory = garbage(random, length + 2 * GUARD);
        let guards = [&memory[..GUARD], &memory[GUARD + length..]].map(<[T]>::to_vec);
        Self { memory, guards }
    }

    /// What is lent.
    pub fn lent(&mut self) -> &mut [T] {
        let end = self.memory.len() - GUARD;
        &mut self.memory[GUARD..end]
    }

    /// What the call left, unless it wrote a guard.
    pub fn left(&self) -> Result<&[T], String> {
        let (before, lent) = self.memory.split_at(GUARD);
        let (lent, behind) = lent.split_at(lent.len() - GUARD);
        if [before, behind] != self.guards.each_ref().map(Vec::as_slice) {
            return Err("a guard was written".into());
        }
        Ok(lent)
    }
}
