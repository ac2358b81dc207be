//! Faults of day blocks and of appointments.

use super::damage::Apply;
use super::plans::File;
use crate::rng::Rng;

pub const BLOCKS: &[(&str, Apply)] = &[
    ("high bit of the offset", |file, day, _| {
        let at = file.places[day].descriptor;
        file.bytes[at + 7] |= 0x80;
        at
    }),
    ("block in the head", |file, day, _| put_offset(file, day, 0)),
    ("block at the table's beginning", |file, day, _| put_offset(file, day, 1)),
    ("block at the table's end", |file, day, _| {
        let end_of_table = 64 + 12 * file.days.len();
        put_offset(file, day, (end_of_table - 1) / 64)
    }),
    ("block behind the file", |file, day, _| put_offset(file, day, file.bytes.len().div_ceil(64))),
    ("block far behind the file", |file, day, _| put_offset(file, day, 0x7FFF)),
    ("another day's block", |file, day, _| put_offset(file, day, file.places[day - 1].block / 64)),
    ("first word not 0", |file, day, rng| scratch(file, day, 0, rng)),
    ("another day in the block", |file, day, rng| scratch(file, day, 2, rng)),
    ("third word not 1", |file, day, rng| scratch(file, day, 4, rng)),
    ("notes one past the end", |file, day, _| {
        let place = &file.places[day];
        let (at, rest) = (place.block + 6, file.bytes.len() - place.block - 10 - place.list.len());
        file.put_word(at, (rest + 1).min(65_535));
        file.places[day].descriptor
    }),
    ("list one past the end", |file, day, _| {
        let place = &file.places[day];
        let (at, rest) = (place.block + 8, file.bytes.len() - place.list.start);
        file.put_word(at, (rest + 1).min(65_535));
        file.places[day].descriptor
    }),
    ("cut in a block", |file, day, rng| {
        let place = &file.places[day];
        file.bytes.truncate(rng.within(place.block..=place.list.end - 1));
        first_past_the_end(file)
    }),
    ("cut by one byte", |file, _, _| {
        let last = file.places.iter().map(|place| place.list.end).max().expect("a day");
        file.bytes.truncate(last - 1);
        first_past_the_end(file)
    }),
];

fn put_offset(file: &mut File, number: usize, offset: usize) -> usize {
    let at = file.places[number].descriptor;
    file.put_word(at + 6, offset);
    at
}

/// Changes one of the two bytes.
fn scratch(file: &mut File, number: usize, at: usize, rng: &mut Rng) -> usize {
    let at = file.places[number].block + at + rng.below(2) as usize;
    file.bytes[at] ^= rng.within(1..=255) as u8;
    file.places[number].descriptor
}

/// The descriptor of the first day whose block is not wholly there.
fn first_past_the_end(file: &File) -> usize {
    let cut = file.places.iter().find(|place| place.list.end > file.bytes.len());
    cut.expect("a block that is cut").descriptor
}

pub const APPOINTMENTS: &[(&str, Apply)] = &[
    ("size 0", |file, day, rng| put(file, any(file, day, rng), 0, 0)),
    ("size 4", |file, day, rng| put(file, any(file, day, rng), 0, 4)),
    ("size below 5", |file, day, rng| put(file, any(file, day, rng), 0, rng.below(5) as u8)),
    ("size one less", |file, day, rng| {
        let at = any(file, day, rng);
        put(file, at, 0, file.bytes[at].wrapping_sub(1))
    }),
    ("size one more", |file, day, rng| {
        let at = any(file, day, rng);
        put(file, at, 0, file.bytes[at].wrapping_add(1))
    }),
    ("flags 4", |file, day, rng| put(file, any(file, day, rng), 1, 4)),
    ("flags over 3", |file, day, rng| put(file, any(file, day, rng), 1, rng.within(4..=255) as u8)),
    ("minute 1,440", |file, day, rng| put_minute(file, any(file, day, rng), 1_440)),
    ("minute over 1,439", |file, day, rng| put_minute(file, any(file, day, rng), rng.within(1_440..=65_535))),
    ("one minute below the one before", |file, day, rng| {
        let number = rng.within(1..=file.places[day].appointments.len() - 1);
        let [before, at] = [number - 1, number].map(|number| file.places[day].appointments[number].start);
        if file.bytes[before + 2..before + 4] == [0, 0] {
            put_minute(file, before, 1);
        }
        let minute = usize::from(u16::from_le_bytes([file.bytes[before + 2], file.bytes[before + 3]]));
        put_minute(file, at, minute - 1)
    }),
    ("no zero at the end", |file, day, rng| {
        let range = rng.pick(&file.places[day].appointments.iter().collect::<Vec<_>>()).clone();
        file.bytes[range.end - 1] = rng.within(1..=255) as u8;
        range.start
    }),
    ("a zero in the text", |file, day, rng| {
        let with_text = file.places[day].appointments.iter().filter(|range| range.len() > 5);
        let range = rng.pick(&with_text.collect::<Vec<_>>()).clone();
        file.bytes[rng.within(range.start + 4..=range.end - 2)] = 0;
        range.start
    }),
    ("list cut in its last appointment", |file, day, rng| {
        let place = &file.places[day];
        let last = place.appointments.last().expect("an appointment").clone();
        let (at, less) = (place.block + 8, rng.within(1..=last.len() - 1));
        file.put_word(at, file.places[day].list.len() - less);
        last.start
    }),
    ("one to four bytes more in the list", |file, day, rng| {
        let (at, list) = (file.places[day].block + 8, file.places[day].list.clone());
        file.bytes.extend([5, 0, 0, 0]);
        file.put_word(at, list.len() + rng.within(1..=4));
        list.end
    }),
];

/// The place of any appointment of the day.
fn any(file: &File, day: usize, rng: &mut Rng) -> usize {
    let appointments = &file.places[day].appointments;
    appointments[rng.within(0..=appointments.len() - 1)].start
}

fn put(file: &mut File, place: usize, at: usize, byte: u8) -> usize {
    file.bytes[place + at] = byte;
    place
}

fn put_minute(file: &mut File, place: usize, minute: usize) -> usize {
    file.put_word(place + 2, minute);
    place
}
