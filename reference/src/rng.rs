//! A small deterministic generator (SplitMix64), so that any failure can be run again.

use std::env;
use std::ops::RangeInclusive;

const DEFAULT_SEED: u64 = 19_930_315;

pub struct Rng(u64);

impl Rng {
    pub fn new(seed: u64) -> Self {
        Rng(seed)
    }

    /// Seeded by the variable SEED, or by a fixed number. Prints the seed, which a failing test shows.
    pub fn for_test(name: &str) -> Self {
        let seed = match env::var("SEED") {
            Ok(word) => word.parse().expect("SEED is a decimal number below 2^64"),
            Err(_) => DEFAULT_SEED,
        };
        println!("{name}: to run this again: SEED={seed} cargo test --release {name}");
        Rng(seed)
    }

    pub fn u64(&mut self) -> u64 {
        self.0 = self.0.wrapping_add(0x9E37_79B9_7F4A_7C15);
        let z = (self.0 ^ self.0 >> 30).wrapping_mul(0xBF58_476D_1CE4_E5B9);
        let z = (z ^ z >> 27).wrapping_mul(0x94D0_49BB_1331_11EB);
        z ^ z >> 31
    }

    pub fn u16(&mut self) -> u16 {
        self.u64() as u16
    }

    pub fn u8(&mut self) -> u8 {
        self.u64() as u8
    }

    /// A number from 0 to `bound` - 1, near enough to evenly.
    pub fn below(&mut self, bound: u64) -> u64 {
        self.u64() % bound
    }
    pub fn within(&mut self, range: RangeInclusive<usize>) -> usize {
        range.start() + self.below((range.end() - range.start() + 1) as u64) as usize
    }

    pub fn one_in(&mut self, count: u64) -> bool {
        self.below(count) == 0
    }

    pub fn pick<T: Copy>(&mut self, items: &[T]) -> T {
        items[self.below(items.len() as u64) as usize]
    }

    pub fn bytes(&mut self, count: usize) -> Vec<u8> {
        (0..count).map(|_| self.u8()).collect()
    }

    pub fn shuffle<T>(&mut self, items: &mut [T]) {
        for at in 1..items.len() {
            items.swap(at, self.within(0..=at));
        }
    }
}
