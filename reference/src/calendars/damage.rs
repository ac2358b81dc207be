//! Faults of Calendar files, each with the number that it is refused with.

use super::blocks::{APPOINTMENTS, BLOCKS};
use super::plans::File;
use crate::calendar::LONGEST;
use crate::damages::{self, of};
use crate::rng::Rng;

/// What a fault is about. Of two faults the one counts that stands first here; of two days' faults, the
/// earlier day's.
#[derive(Clone, Copy, Debug, PartialEq, Eq, PartialOrd, Ord)]
pub enum Part {
    Length,
    Head,
    Table,
    Descriptor,
    Day,
}

pub type Damage = damages::Damage<Part, Apply>;

/// Damages a right file of which this day has two appointments or more and is not the first.
pub type Apply = fn(&mut File, usize, &mut Rng) -> usize;

/// All there are.
pub fn damages() -> Vec<Damage> {
    [
        of(20, Part::Length, LENGTHS),
        of(21, Part::Head, HEADS),
        of(22, Part::Table, TABLES),
        of(22, Part::Descriptor, DESCRIPTORS),
        of(23, Part::Day, BLOCKS),
        of(24, Part::Day, APPOINTMENTS),
    ]
    .into_iter()
    .flatten()
    .collect()
}

const LENGTHS: &[(&str, Apply)] = &[
    ("one byte too many", |file, _, _| {
        file.bytes.resize(LONGEST + 1, 0);
        0
    }),
    ("more bytes", |file, _, rng| {
        file.bytes.resize(rng.within(LONGEST + 1..=LONGEST + 100_000), 7);
        0
    }),
];

const HEADS: &[(&str, Apply)] = &[
    ("nothing", |file, _, _| {
        file.bytes.clear();
        0
    }),
    ("cut in the head", |file, _, rng| {
        file.bytes.truncate(rng.within(0..=63));
        0
    }),
    ("cut to 63 bytes", |file, _, _| {
        file.bytes.truncate(63);
        0
    }),
    ("wrong identification", |file, _, rng| {
        file.bytes[rng.within(0..=7)] ^= rng.within(1..=255) as u8;
        0
    }),
];

const TABLES: &[(&str, Apply)] = &[
    ("cut in the table", |file, _, rng| {
        file.bytes.truncate(rng.within(64..=63 + 12 * file.days.len()));
        64
    }),
    ("table cut by one byte", |file, _, _| {
        file.bytes.truncate(63 + 12 * file.days.len());
        64
    }),
    ("one descriptor too many for the file", |file, _, _| {
        file.put_word(8, (file.bytes.len() - 64) / 12 + 1);
        64
    }),
    ("65,535 descriptors", |file, _, _| {
        file.put_word(8, 65_535);
        64
    }),
];

const DESCRIPTORS: &[(&str, Apply)] = &[
    ("day 43,830", |file, day, _| put_day(file, day, 43_830)),
    ("day far too late", |file, day, rng| put_day(file, day, rng.within(43_830..=65_535))),
    ("the same day twice", |file, day, _| put_day(file, day, file.days[day - 1].day.into())),
    ("an earlier day", |file, day, rng| put_day(file, day, rng.within(0..=file.days[day - 1].day.into()))),
    ("two descriptors exchanged", |file, day, _| {
        let (one, other) = (file.places[day - 1].descriptor, file.places[day].descriptor);
        for at in 0..12 {
            file.bytes.swap(one + at, other + at);
        }
        other
    }),
];

fn put_day(file: &mut File, number: usize, day: usize) -> usize {
    let at = file.places[number].descriptor;
    file.put_word(at, day);
    at
}
