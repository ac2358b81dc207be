//! Bytes after the end record, by request R-1. Its numbers stand here once more, so that a slip in the reader's own is
//! seen.

use super::damage::lengthen_last_record;
use super::file::File;
use super::small;
use crate::book::LONGEST;
use crate::rng::Rng;

pub const FILLER: u8 = 26;
const MOST: usize = 127;
/// Of a file that came over a modem.
const BLOCK: usize = 128;

/// How many a book of so many bytes gets: often none, often up to a whole block, or any number.
pub fn some(length: usize, rng: &mut Rng) -> usize {
    match rng.below(8) {
        0..4 => 0,
        4..6 => length.next_multiple_of(BLOCK) - length,
        6 => rng.pick(&[1, 2, 3, MOST - 1, MOST]),
        _ => rng.within(1..=MOST),
    }
}

/// A book that is longer than the greatest size only by its fillers.
pub fn overfilled(rng: &mut Rng) -> File {
    let count = rng.within(1..=MOST);
    let over = if rng.one_in(2) { 1 } else { rng.within(1..=count) };
    let mut file = File::padded(LONGEST + over - count, vec![small(1, rng)]);
    file.fill(count);
    file
}

/// Any byte that is no filler, and often one that nearly is, or that begins a record.
fn other(rng: &mut Rng) -> u8 {
    let byte = if rng.one_in(2) { rng.pick(&[0, 1, 10, 25, 27, 50, 154, 255]) } else { rng.u8() };
    if byte == FILLER {
        0
    } else {
        byte
    }
}

// Damages, each of which gives the place that the file is then refused with.

/// One, or up to 300 of which the first is no filler.
pub fn other_bytes(file: &mut File, rng: &mut Rng) -> usize {
    let count = rng.within(1..=300);
    file.fill(rng.pick(&[1, count]));
    let at = file.after_end();
    file.bytes[at..].fill_with(|| rng.u8());
    file.bytes[at] = other(rng);
    at
}

pub fn one_wrong(file: &mut File, rng: &mut Rng) -> usize {
    file.fill(rng.within(1..=MOST));
    spoil(file, rng)
}

fn spoil(file: &mut File, rng: &mut Rng) -> usize {
    let at = rng.within(file.after_end()..=file.bytes.len() - 1);
    file.bytes[at] = other(rng);
    at
}

/// Fillers, and from the first wrong one on anything.
pub fn several_wrong(file: &mut File, rng: &mut Rng) -> usize {
    let at = one_wrong(file, rng);
    file.bytes[at + 1..].fill_with(|| if rng.one_in(2) { FILLER } else { rng.u8() });
    at
}

pub fn another_end_record(file: &mut File, rng: &mut Rng) -> usize {
    file.fill(rng.within(0..=MOST - 3));
    file.bytes.extend([50, 0, 0]);
    file.bytes.len() - 3
}

pub fn one_too_many(file: &mut File, _: &mut Rng) -> usize {
    file.fill(MOST + 1);
    file.after_end()
}

pub fn too_many(file: &mut File, rng: &mut Rng) -> usize {
    let count = rng.within(MOST + 1..=2_000);
    file.fill(rng.pick(&[MOST + 1, MOST + 2, 2 * BLOCK - 1, 2 * BLOCK, count]));
    file.after_end()
}

pub fn too_many_and_one_wrong(file: &mut File, rng: &mut Rng) -> usize {
    let place = too_many(file, rng);
    spoil(file, rng);
    place
}

pub fn to_the_greatest_size(file: &mut File, _: &mut Rng) -> usize {
    file.bytes.resize(LONGEST, FILLER);
    file.after_end()
}

pub fn past_the_greatest_size(file: &mut File, _: &mut Rng) -> usize {
    file.bytes.resize(LONGEST + 1, FILLER);
    0
}

/// Without an end record they are taken for the head of a record, of a type unknown.
pub fn no_end_record(file: &mut File, count: usize) -> usize {
    let place = file.end();
    file.bytes.truncate(place);
    file.bytes.resize(place + count, FILLER);
    place
}

/// So they are where the last record takes in the end record.
pub fn end_record_in_the_last(file: &mut File, count: usize) -> usize {
    file.fill(count);
    lengthen_last_record(file, 3);
    file.after_end()
}
