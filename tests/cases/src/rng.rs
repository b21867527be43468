//! A small random generator, so that a seed gives the same reports on every machine.

use std::ops::RangeInclusive;

/// SplitMix64.
#[derive(Clone, Debug)]
pub struct Rng(u64);

const GOLDEN: u64 = 0x9e37_79b9_7f4a_7c15;

impl Rng {
    /// The generator of case `number` under `seed`: each case can be made without those before it.
    pub fn new(seed: u64, number: u64) -> Rng {
        let mut rng = Rng(seed);
        let start = rng.next() ^ number.wrapping_mul(GOLDEN);
        Rng(Rng(start).next())
    }

    pub fn next(&mut self) -> u64 {
        self.0 = self.0.wrapping_add(GOLDEN);
        let z = (self.0 ^ self.0 >> 30).wrapping_mul(0xbf58_476d_1ce4_e5b9);
        let z = (z ^ z >> 27).wrapping_mul(0x94d0_49bb_1331_11eb);
        z ^ z >> 31
    }

    pub fn word(&mut self) -> u32 {
        (self.next() >> 32) as u32
    }

    pub fn byte(&mut self) -> u8 {
        (self.next() >> 56) as u8
    }

    pub fn flag(&mut self) -> bool {
        self.next() >> 63 == 1
    }

    /// A number in the range. The slight unevenness of the remainder does not matter here.
    pub fn within(&mut self, range: RangeInclusive<u32>) -> u32 {
        let span = u64::from(*range.end()) - u64::from(*range.start()) + 1;
        range.start() + (self.next() % span) as u32
    }

    pub fn below(&mut self, bound: usize) -> usize {
        (self.next() % bound as u64) as usize
    }

    pub fn percent(&mut self, chance: u32) -> bool {
        self.within(0..=99) < chance
    }

    pub fn pick<T: Copy>(&mut self, items: &[T]) -> T {
        items[self.below(items.len())]
    }

    pub fn bytes(&mut self, count: usize) -> Vec<u8> {
        (0..count).map(|_| self.byte()).collect()
    }
}
