//! Hostile files: random bytes, right files, and right files damaged in every way.

use crate::book;
use crate::books::{self, book_near, book_of_span, crowded, edge_day, Span, FILLER};
use crate::calendar;
use crate::calendars;
use crate::export::export;
use crate::fuzz::numbers::SHORT_MONTH;
use crate::rng::Rng;

/// Words that stand at some edge, and bytes of heads and records.
const WORDS: &[u16] =
    &[0, 1, 2, 5, 50, 255, 256, 1_439, 1_440, 32_767, 32_768, 43_829, 43_830, 65_534, 65_535, 0xA2B5, 0x1A1A];

/// A book, or what once was one.
pub fn book(rng: &mut Rng) -> Vec<u8> {
    let seed = Rng::new(rng.u64());
    if rng.one_in(400) {
        // Its export may be too long for any buffer.
        let mut file = crowded(rng.within(1_200..=1_400), 0);
        file.fill_often(rng);
        return file.bytes;
    }
    match rng.below(16) {
        0 => bytes(book::LONGEST, rng),
        1..6 => books::Cases::new(seed).next().expect("a case").file,
        6..10 => right_book(rng),
        _ => {
            let (file, other) = (right_book(rng), right_book(rng));
            damaged(file, &other, rng)
        }
    }
}

/// With records near to days of 1993 and 1994, or to any day.
fn right_book(rng: &mut Rng) -> Vec<u8> {
    let records = rng.pick(&[0, 1, 2, 3, 8, 30]);
    match rng.below(4) {
        0 => book_near(edge_day(rng), records, rng).bytes,
        1 => book_near(SHORT_MONTH, records, rng).bytes,
        2 => book_of_span(Span { first: 4_822, count: 366 }, records, rng).bytes,
        _ => book_of_span(Span { first: 4_822, count: 7 }, records, rng).bytes,
    }
}

/// A Calendar file, or what once was one.
pub fn calendar(rng: &mut Rng) -> Vec<u8> {
    let seed = Rng::new(rng.u64());
    match rng.below(16) {
        0 => bytes(calendar::LONGEST, rng),
        1..6 => calendars::Cases::new(seed).next().expect("a case").file,
        6..8 => calendars::right(rng).bytes,
        8..10 => exported(rng),
        _ => {
            let file = if rng.one_in(2) { exported(rng) } else { calendars::right(rng).bytes };
            let other = calendars::right(rng).bytes;
            damaged(file, &other, rng)
        }
    }
}

fn exported(rng: &mut Rng) -> Vec<u8> {
    let mut file = vec![0; calendar::LONGEST];
    let count = rng.pick(&[1, 7, 40, 366]);
    let length = export(&right_book(rng), 4_822, count, Default::default(), &mut file).expect("room");
    file.truncate(length);
    file
}

/// Random bytes, alone or behind the right first ones; seldom about as many as there may be, or many more.
fn bytes(longest: usize, rng: &mut Rng) -> Vec<u8> {
    let count = match rng.below(40) {
        0 => longest + rng.within(0..=6) - 3,
        1 => longest + rng.within(0..=5_000),
        _ => rng.within(0..=400),
    };
    let start: &[u8] = rng.pick(&[&[], &book::IDENTIFICATION, &calendar::IDENTIFICATION]);
    let most = rng.pick(&[0, 1, 50, 255]);
    let mut file = start.to_vec();
    file.extend((0..count).map(|_| if most == 0 { 0 } else { rng.below(most + 1) as u8 }));
    file
}

/// Some of its bytes changed, moved, doubled, lost, or taken from another file.
fn damaged(mut file: Vec<u8>, other: &[u8], rng: &mut Rng) -> Vec<u8> {
    for _ in 0..rng.pick(&[1, 1, 2, 4, 16]) {
        damage(&mut file, other, rng);
    }
    file
}

fn damage(file: &mut Vec<u8>, other: &[u8], rng: &mut Rng) {
    let at = rng.within(0..=file.len());
    let end = (at + rng.pick(&[1, 2, 3, 12, 64, 200])).min(file.len());
    match rng.below(11) {
        0 => file.truncate(at),
        1 => {
            let more = rng.within(1..=64);
            file.extend(rng.bytes(more));
        }
        2 => drop(file.drain(at..end)),
        3 => {
            let again = file[at..end].to_vec();
            file.splice(at..at, again);
        }
        4 => {
            let from = rng.within(0..=other.len());
            let to = (from + end - at).min(other.len());
            file.splice(at..end, other[from..to].iter().copied());
        }
        5 => file[at..end].fill(rng.pick(&[0, 1, FILLER, 255])),
        6 if end - at >= 2 => file[at..at + 2].copy_from_slice(&rng.pick(WORDS).to_le_bytes()),
        7 if at < end => file[at] ^= 1 << rng.below(8),
        8 if at < end => file[at] = rng.u8(),
        9 => {
            let any = rng.within(1..=130);
            file.extend(vec![FILLER; rng.pick(&[1, 2, 126, 127, 128, any])]);
        }
        _ if at < end => file[at] = file[at].wrapping_add(rng.pick(&[1, 255])),
        _ => (),
    }
}
