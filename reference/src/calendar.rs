//! Document 01, "The Calendar file": the reader. Every call judges the whole file before it answers.
//!
//! Ignored are the reserved bytes, the six settings, marks, alarm counts and notes.

use crate::days::LAST_DAY;
use crate::records::LAST_MINUTE;
use crate::refusal::{Refusal, NO_SUCH_NUMBER, OUT_OF_RANGE};
use std::ops::Range;

pub const LONGEST: usize = 2_228_224;
pub const IDENTIFICATION: [u8; 8] = [0xB5, 0xA2, 0xB0, 0xB3, 0xB3, 0xB0, 0xA2, 0xB5];
pub const HEAD: usize = 64;
pub const DESCRIPTOR: usize = 12;
/// Day blocks begin at multiples of it.
pub const UNIT: usize = 64;
/// A day block's five words.
pub const BLOCK_HEAD: usize = 10;

#[derive(Clone, Copy, Debug, PartialEq, Eq)]
pub struct Descriptor {
    pub day: u16,
    /// As it is stored, in units of 64 bytes.
    pub offset: u16,
}

#[derive(Clone, Debug, PartialEq, Eq)]
pub struct Appointment {
    pub minute: u16,
    pub flags: u16,
    /// A stretch of the file, without its zero.
    pub text: Range<usize>,
}

/// The number of days.
pub fn read_calendar(file: &[u8]) -> Result<usize, Refusal> {
    Ok(descriptors(read(file, |_, _| ())?).len())
}

pub fn calendar_day(file: &[u8], number: usize) -> Result<Descriptor, Refusal> {
    descriptors(read(file, |_, _| ())?).nth(number).ok_or(NO_SUCH_NUMBER)
}

/// All appointments of a day; none where it has no descriptor.
pub fn day_appointments(file: &[u8], day: u16) -> Result<Vec<Appointment>, Refusal> {
    let mut appointments = Vec::new();
    read(file, |of, appointment| {
        if of == day {
            appointments.push(appointment);
        }
    })?;
    if day > LAST_DAY {
        return Err(OUT_OF_RANGE);
    }
    Ok(appointments)
}

pub fn calendar_appointments(file: &[u8], day: u16) -> Result<usize, Refusal> {
    Ok(day_appointments(file, day)?.len())
}

pub fn calendar_appointment(file: &[u8], day: u16, number: usize) -> Result<Appointment, Refusal> {
    day_appointments(file, day)?.into_iter().nth(number).ok_or(NO_SUCH_NUMBER)
}

/// Judges the file, shows each day's appointments in turn, and gives the table of descriptors.
fn read(file: &[u8], mut show: impl FnMut(u16, Appointment)) -> Result<&[u8], Refusal> {
    if file.len() > LONGEST {
        return Err(Refusal { number: 20, place: 0 });
    }
    if file.len() < HEAD || !file.starts_with(&IDENTIFICATION) {
        return Err(Refusal { number: 21, place: 0 });
    }
    let end = HEAD + DESCRIPTOR * usize::from(word(file, 8));
    let table = file.get(HEAD..end).ok_or(Refusal { number: 22, place: HEAD })?;
    let mut least = 0;
    for (descriptor, place) in descriptors(table).zip(places()) {
        if descriptor.day < least || descriptor.day > LAST_DAY {
            return Err(Refusal { number: 22, place });
        }
        least = descriptor.day + 1;
    }
    for (descriptor, place) in descriptors(table).zip(places()) {
        let list = list(file, descriptor, end).ok_or(Refusal { number: 23, place })?;
        each_appointment(file, list, |appointment| show(descriptor.day, appointment))?;
    }
    Ok(table)
}

fn descriptors(table: &[u8]) -> impl ExactSizeIterator<Item = Descriptor> + '_ {
    let descriptor = |bytes: &[u8]| Descriptor { day: word(bytes, 0), offset: word(bytes, 6) };
    table.chunks_exact(DESCRIPTOR).map(descriptor)
}

/// Of the descriptors.
fn places() -> impl Iterator<Item = usize> {
    (HEAD..).step_by(DESCRIPTOR)
}

fn word(bytes: &[u8], at: usize) -> u16 {
    u16::from_le_bytes([bytes[at], bytes[at + 1]])
}

/// Where the day's appointments stand; None where the block is not as it should be.
fn list(file: &[u8], Descriptor { day, offset }: Descriptor, end_of_table: usize) -> Option<Range<usize>> {
    let at = UNIT * usize::from(offset);
    if offset >= 0x8000 || at < end_of_table {
        return None;
    }
    let block = file.get(at..at + BLOCK_HEAD)?;
    let start = at + BLOCK_HEAD + usize::from(word(block, 6));
    let end = start + usize::from(word(block, 8));
    let right = word(block, 0) == 0 && word(block, 2) == day && word(block, 4) == 1 && end <= file.len();
    right.then_some(start..end)
}

fn each_appointment(
    file: &[u8],
    list: Range<usize>,
    mut show: impl FnMut(Appointment),
) -> Result<(), Refusal> {
    let mut at = list.start;
    let mut earliest = 0;
    while at < list.end {
        let refusal = Refusal { number: 24, place: at };
        let (size, minute, flags) = appointment(&file[at..list.end], earliest).ok_or(refusal)?;
        show(Appointment { minute, flags, text: at + 4..at + size - 1 });
        earliest = minute;
        at += size;
    }
    Ok(())
}

/// The size, minute and flags of the first appointment of what is left of a list.
fn appointment(list: &[u8], earliest: u16) -> Option<(usize, u16, u16)> {
    let &[size, flags, low, high, ..] = list else { return None };
    let size = usize::from(size);
    let (&zero, text) = list.get(4..size)?.split_last()?;
    let minute = u16::from_le_bytes([low, high]);
    let right = flags <= 3 && earliest <= minute && minute <= LAST_MINUTE && zero == 0 && !text.contains(&0);
    right.then_some((size, minute, flags.into()))
}
