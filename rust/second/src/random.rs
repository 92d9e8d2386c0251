//! A small generator of random numbers, the same for the same seed.

use crate::bytes::Bytes32;

/// SplitMix64: a counter, and a scramble of it.
#[derive(Clone, Debug)]
pub struct Random {
    counter: u64,
}

impl Random {
    /// The generator of this seed.
    pub fn new(seed: u64) -> Random {
        Random { counter: seed }
    }

    /// The next 64 bits.
    pub fn u64(&mut self) -> u64 {
        self.counter = self.counter.wrapping_add(0x9e37_79b9_7f4a_7c15);
        let mut x = self.counter;
        x = (x ^ (x >> 30)).wrapping_mul(0xbf58_476d_1ce4_e5b9);
        x = (x ^ (x >> 27)).wrapping_mul(0x94d0_49bb_1331_11eb);
        x ^ (x >> 31)
    }

    /// A number below the bound, which is at least 1.
    pub fn below(&mut self, bound: usize) -> usize {
        (self.u64() % bound as u64) as usize
    }

    /// A number from the first to the last, both included.
    pub fn between(&mut self, first: u128, last: u128) -> u128 {
        first + u128::from(self.u64()) % (last - first + 1)
    }

    /// True one time in `many`.
    pub fn one_in(&mut self, many: usize) -> bool {
        self.below(many) == 0
    }

    /// One of these.
    pub fn pick<'a, T>(&mut self, items: &'a [T]) -> &'a T {
        &items[self.below(items.len())]
    }

    /// Puts these into a random order.
    pub fn shuffle<T>(&mut self, items: &mut [T]) {
        for last in (1..items.len()).rev() {
            items.swap(last, self.below(last + 1));
        }
    }

    /// Fills a run of bytes.
    pub fn fill(&mut self, bytes: &mut [u8]) {
        for byte in bytes {
            *byte = self.u64() as u8;
        }
    }

    /// This many bytes.
    pub fn bytes<const N: usize>(&mut self) -> [u8; N] {
        let mut bytes = [0; N];
        self.fill(&mut bytes);
        bytes
    }

    /// A key of 252 bits: the top four bits are zero.
    pub fn key(&mut self) -> Bytes32 {
        let mut key = self.bytes::<32>();
        key[0] &= 0x0f;
        key
    }

    /// Turns one bit of these bytes over, often one of the first or of the
    /// last byte.
    pub fn flip_bit(&mut self, bytes: &mut [u8]) {
        let byte = match self.below(4) {
            0 => 0,
            1 => bytes.len() - 1,
            _ => self.below(bytes.len()),
        };
        self.flip_bit_of(&mut bytes[byte]);
    }

    /// Turns one bit of this byte over.
    pub fn flip_bit_of(&mut self, byte: &mut u8) {
        *byte ^= 1 << self.below(8);
    }
}
