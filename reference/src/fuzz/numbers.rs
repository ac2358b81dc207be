//! Hostile numbers: edges, neighbours of edges, what is right, and anything.

use crate::pages::{ShortMonth, CHOICES};
use crate::rng::Rng;

const SHORT: &[u16] = &[
    0, 1, 2, 7, 12, 13, 27, 28, 31, 255, 256, 365, 366, 367, 1_439, 1_440, 1_979, 1_980, 2_099, 2_100, 3_651,
    3_652, 25_567, 25_568, 29_219, 29_220, 32_767, 32_768, 43_463, 43_464, 43_465, 43_828, 43_829, 43_830,
    65_534, 65_535,
];

/// 28 February 1994, to which records may be moved.
pub const SHORT_MONTH: u16 = 5_172;

pub fn short(rng: &mut Rng) -> u16 {
    match rng.below(4) {
        0 => rng.u16(),
        1 => rng.below(40) as u16,
        _ => rng.pick(SHORT),
    }
}

/// A Calendar day more often than not, and often one of 1993 and 1994.
pub fn day(rng: &mut Rng) -> u16 {
    match rng.below(8) {
        0 => short(rng),
        1 => rng.below(43_830) as u16,
        2 => SHORT_MONTH,
        _ => 4_822 + rng.below(366) as u16,
    }
}

pub fn date(rng: &mut Rng) -> (u16, u16, u16) {
    if rng.one_in(4) {
        return (short(rng), short(rng), short(rng));
    }
    (rng.within(1_978..=2_101) as u16, rng.within(0..=13) as u16, rng.within(0..=32) as u16)
}

/// One of the first so many, the next one, or anything.
pub fn long(count: usize, rng: &mut Rng) -> usize {
    match rng.below(8) {
        0 => rng.u64() as usize,
        1 => 1 << rng.below(64),
        2 => usize::MAX - rng.below(20) as usize,
        3 => count,
        _ => rng.within(0..=count),
    }
}

pub fn choice(rng: &mut Rng) -> ShortMonth {
    rng.pick(&CHOICES)
}
