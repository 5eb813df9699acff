//! Made-up inputs from a seed: ids, keys, addresses, messages, recipes, lent memory, streams, peers that answer lookups, and whole sequences of calls.
//! Sizes stand at and around the limits more often than chance would have it.

mod memory;
mod messages;
mod names;
mod network;
mod recipes;
mod source;
mod streams;

pub use memory::*;
pub use messages::*;
pub use names::*;
pub use network::Network;
pub use recipes::*;
pub use source::Source;
pub use streams::*;

/// A small generator of numbers (splitmix64): the same seed, the same run.
#[derive(Clone, Debug)]
pub struct Rng(u64);

impl Rng {
    pub fn new(seed: u64) -> Rng {
        Rng(seed)
    }

    pub fn number(&mut self) -> u64 {
        self.0 = self.0.wrapping_add(0x9e37_79b9_7f4a_7c15);
        let z = (self.0 ^ (self.0 >> 30)).wrapping_mul(0xbf58_476d_1ce4_e5b9);
        let z = (z ^ (z >> 27)).wrapping_mul(0x94d0_49bb_1331_11eb);
        z ^ (z >> 31)
    }

    /// 0 up to n - 1; 0 for n = 0.
    pub fn below(&mut self, n: usize) -> usize {
        if n == 0 {
            0
        } else {
            (self.number() % n as u64) as usize
        }
    }

    /// From a to b, both among them.
    pub fn between(&mut self, a: usize, b: usize) -> usize {
        a + self.below(b - a + 1)
    }

    /// One time in n.
    pub fn one_in(&mut self, n: usize) -> bool {
        self.below(n) == 0
    }

    pub fn pick<'a, T>(&mut self, from: &'a [T]) -> &'a T {
        &from[self.below(from.len())]
    }

    pub fn byte(&mut self) -> u8 {
        self.number() as u8
    }

    pub fn bytes(&mut self, n: usize) -> Vec<u8> {
        (0..n).map(|_| self.byte()).collect()
    }

    pub fn shuffle<T>(&mut self, items: &mut [T]) {
        for i in (1..items.len()).rev() {
            items.swap(i, self.below(i + 1));
        }
    }

    /// A size from a to b, often at one of the ends.
    pub fn size(&mut self, a: usize, b: usize) -> usize {
        match self.below(6) {
            0 => a,
            1 => b,
            2 => self.between(a, b.min(a + 3)),
            _ => self.between(a, b),
        }
    }
}
