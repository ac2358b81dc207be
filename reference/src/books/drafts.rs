//! Records still to be written.
//!
//! Fields are put at the offsets of source 000, whereas the reader takes them in document 01's order.

use crate::days::{date_of_day, LAST_DAY};
use crate::rng::Rng;
use Field::*;

/// What stands at one place or belongs together; a to-do's state goes with its check-off date.
#[derive(Clone, Copy, Debug, PartialEq, Eq)]
pub enum Field {
    Type,
    Length,
    Head,
    State,
    Weekday,
    Week,
    Day,
    MonthAndDay,
    Priority,
    Times,
    Lead,
    Date,
    Dates,
    CheckOff,
    TextLength,
    NoteLength,
}

/// Those that are made at random.
const FIELDS: [Field; 11] =
    [State, Weekday, Week, Day, MonthAndDay, Priority, Times, Lead, Date, Dates, CheckOff];

/// Where the bytes of a field stand in a record, by source 000; none where the kind has no such field.
pub fn places(kind: u8, field: Field) -> &'static [usize] {
    match (field, kind) {
        (Type, _) => &[0],
        (Length, _) => &[1, 2],
        (Head, _) => &[0, 1, 2],
        (State, 1..=5) => &[3],
        (Weekday, 2) | (Day, 3) | (Week, 4) | (Priority, 6) => &[4],
        (Weekday, 4) => &[5],
        (MonthAndDay, 5) => &[4, 5],
        (Times, 1) => &[7, 8, 9, 10],
        (Times, 2 | 3) => &[5, 6, 10, 11],
        (Times, 4 | 5) => &[6, 7, 11, 12],
        (Lead, 1) => &[11],
        (Lead, 2 | 3) => &[15],
        (Lead, 4 | 5) => &[16],
        (Date, 1) => &[4, 5, 6],
        (Date, 6) => &[5, 6, 7],
        (Dates, 2 | 3) => &[7, 8, 9, 12, 13, 14],
        (Dates, 4 | 5) => &[8, 9, 10, 13, 14, 15],
        (CheckOff, 6) => &[3, 8, 9, 10],
        (TextLength, 1) => &[12],
        (TextLength, 2 | 3) => &[16],
        (TextLength, 4 | 5) => &[17],
        (TextLength, 6) => &[11],
        (NoteLength, 1) => &[13, 14],
        (NoteLength, 2 | 3) => &[17, 18],
        (NoteLength, 4 | 5) => &[18, 19],
        (NoteLength, 6) => &[12, 13],
        _ => &[],
    }
}

pub fn text_at(kind: u8) -> usize {
    match kind {
        1 => 15,
        2 | 3 => 19,
        4 | 5 => 20,
        _ => 14,
    }
}

/// Values at the edges of the ranges, and the number they are refused with (0: accepted).
/// Times are the start, high byte first, and the end, low byte first; a check-off begins with the state.
pub const EDGES: &[(Field, u32, &[&[u8]])] = &[
    (Type, 5, &[&[0], &[7], &[49], &[51], &[255]]),
    (Head, 5, &[&[50, 1, 0], &[50, 0, 1], &[50, 255, 255], &[0, 255, 255], &[7, 255, 255], &[51, 0, 0]]),
    (Length, 4, &[&[255, 255]]),
    (Length, 6, &[&[0, 0], &[1, 0], &[10, 0]]),
    (TextLength, 6, &[&[28], &[128], &[255]]),
    (NoteLength, 6, &[&[255, 255], &[0, 255]]),
    (State, 0, &[&[0], &[1], &[252], &[253]]),
    (Weekday, 0, &[&[1], &[7]]),
    (Weekday, 7, &[&[0], &[8], &[255]]),
    (Week, 0, &[&[1], &[5]]),
    (Week, 7, &[&[0], &[6], &[255]]),
    (Day, 0, &[&[1], &[29], &[30], &[31]]),
    (Day, 7, &[&[0], &[32], &[255]]),
    (MonthAndDay, 0, &[&[1, 1], &[1, 31], &[2, 28], &[2, 29], &[4, 30], &[12, 31]]),
    (MonthAndDay, 7, &[&[2, 30], &[2, 31], &[4, 31], &[6, 31], &[9, 31], &[11, 31]]),
    (MonthAndDay, 7, &[&[0, 1], &[13, 1], &[255, 1], &[1, 0], &[1, 32], &[12, 255]]),
    (Priority, 0, &[&[1], &[9]]),
    (Priority, 7, &[&[0], &[10], &[255]]),
    (Times, 0, &[&[0, 0, 0, 0], &[0, 0, 0x9F, 5], &[5, 0x9F, 0x9F, 5], &[0, 5, 5, 0], &[1, 0, 0, 1]]),
    (Times, 7, &[&[0, 0, 0xA0, 5], &[5, 0xA0, 0xA0, 5], &[5, 0xA0, 0x9F, 5], &[255, 255, 255, 255]]),
    (Times, 7, &[&[0, 1, 0, 0], &[5, 0x9F, 0x9E, 5], &[5, 0x9F, 0, 0], &[1, 0, 255, 0]]),
    (Lead, 0, &[&[0], &[30]]),
    (Lead, 7, &[&[31], &[255]]),
    (Date, 0, &[&[80, 1, 1], &[199, 12, 31], &[80, 2, 29], &[100, 2, 29], &[93, 2, 28]]),
    (Date, 7, &[&[79, 12, 31], &[200, 1, 1], &[0, 0, 0], &[255, 1, 1], &[93, 0, 1], &[93, 13, 1]]),
    (Date, 7, &[&[93, 3, 0], &[93, 3, 32], &[93, 4, 31], &[93, 2, 29], &[100, 2, 30], &[80, 255, 255]]),
    (Dates, 0, &[&[80, 1, 1, 199, 12, 31], &[80, 1, 1, 80, 1, 1], &[199, 12, 31, 199, 12, 31]]),
    (Dates, 0, &[&[93, 12, 31, 94, 1, 1], &[93, 3, 31, 93, 4, 1], &[100, 2, 29, 100, 2, 29]]),
    (Dates, 7, &[&[79, 12, 31, 93, 3, 15], &[200, 1, 1, 200, 1, 1], &[93, 2, 29, 93, 3, 15]]),
    (Dates, 7, &[&[93, 3, 15, 200, 1, 1], &[93, 3, 15, 93, 4, 31], &[93, 3, 15, 94, 0, 1]]),
    (Dates, 7, &[&[93, 3, 16, 93, 3, 15], &[93, 4, 1, 93, 3, 31], &[94, 1, 1, 93, 12, 31]]),
    (
        Dates,
        7,
        &[&[0, 0, 0, 93, 3, 15], &[93, 3, 15, 0, 0, 0], &[93, 13, 1, 94, 1, 1], &[93, 3, 0, 94, 1, 1]],
    ),
    (CheckOff, 0, &[&[0, 0, 0, 0], &[1, 0, 0, 0], &[253, 0, 0, 0], &[2, 80, 1, 1], &[255, 199, 12, 31]]),
    (CheckOff, 7, &[&[0, 93, 3, 15], &[1, 93, 0, 0], &[0, 0, 3, 0], &[253, 0, 0, 15], &[0, 255, 255, 255]]),
    (CheckOff, 7, &[&[2, 0, 0, 0], &[255, 0, 0, 0], &[2, 93, 2, 29], &[3, 79, 12, 31], &[2, 200, 1, 1]]),
    (CheckOff, 7, &[&[2, 93, 0, 15], &[2, 93, 3, 0], &[2, 0, 3, 15]]),
];

/// Place, number and values, as above.
pub const SETTINGS: &[(usize, u32, &[&[u8]])] = &[
    (5, 0, &[&[0, 0], &[0x9F, 5]]),
    (5, 3, &[&[0xA0, 5], &[0, 6], &[255, 255]]),
    (7, 0, &[&[1, 0], &[0, 1], &[0xD0, 2]]),
    (7, 3, &[&[0, 0], &[0xD1, 2], &[0, 3], &[255, 255]]),
    (9, 0, &[&[0], &[1]]),
    (9, 3, &[&[2], &[255]]),
    (10, 0, &[&[0], &[30]]),
    (10, 3, &[&[31], &[255]]),
    (11, 0, &[&[0], &[1]]),
    (11, 3, &[&[2], &[255]]),
];

/// A record that is still to be written. Values put later win, also over its true lengths.
#[derive(Clone)]
pub struct Draft {
    pub kind: u8,
    pub text: Vec<u8>,
    pub note: Vec<u8>,
    pub padding: Vec<u8>,
    pub values: Vec<(Field, Vec<u8>)>,
}

impl Draft {
    pub fn random(kind: u8, rng: &mut Rng) -> Self {
        let (text, note, padding) = (text(rng), note(rng), padding(rng));
        let values = FIELDS.iter().filter(|&&field| !places(kind, field).is_empty());
        let values = values.map(|&field| (field, value(field, rng))).collect();
        Draft { kind, text, note, padding, values }
    }

    pub fn put(&mut self, field: Field, value: impl AsRef<[u8]>) {
        self.values.push((field, value.as_ref().to_vec()));
    }

    pub fn bytes(&self) -> Vec<u8> {
        let mut bytes = vec![0; text_at(self.kind)];
        for part in [&self.text, &self.note, &self.padding] {
            bytes.extend(part);
        }
        let truth = [
            (Type, vec![self.kind]),
            (Length, low_first(bytes.len() - 3)),
            (TextLength, vec![self.text.len() as u8]),
            (NoteLength, low_first(self.note.len())),
        ];
        for (field, value) in truth.iter().chain(&self.values) {
            for (&place, &byte) in places(self.kind, *field).iter().zip(value) {
                bytes[place] = byte;
            }
        }
        bytes
    }
}

pub fn low_first(number: usize) -> Vec<u8> {
    (number as u16).to_le_bytes().to_vec()
}

/// In range, and often at an edge.
fn value(field: Field, rng: &mut Rng) -> Vec<u8> {
    if rng.one_in(3) {
        let rows: Vec<_> = EDGES.iter().filter(|edge| edge.0 == field && edge.1 == 0).collect();
        let edges = rng.pick(&rows).2;
        return rng.pick(edges).to_vec();
    }
    let mut to = |last: usize| rng.within(1..=last) as u8;
    match field {
        Weekday => vec![to(7)],
        Week => vec![to(5)],
        Day => vec![to(31)],
        Priority => vec![to(9)],
        MonthAndDay => dates(1, rng)[0][1..].to_vec(),
        Lead => vec![rng.within(0..=30) as u8],
        Times => {
            let mut minutes = [rng.within(0..=1_439) as u16, rng.within(0..=1_439) as u16];
            minutes.sort();
            [minutes[0].to_be_bytes(), minutes[1].to_le_bytes()].concat()
        }
        Date => dates(1, rng).concat(),
        Dates => dates(2, rng).concat(),
        CheckOff => {
            let state = rng.u8();
            let date = if state & 2 == 0 { vec![0; 3] } else { dates(1, rng).concat() };
            [vec![state], date].concat()
        }
        _ => vec![rng.u8()],
    }
}

/// So many dates, rising.
fn dates(count: usize, rng: &mut Rng) -> Vec<[u8; 3]> {
    let mut days: Vec<u16> = (0..count).map(|_| rng.within(0..=LAST_DAY.into()) as u16).collect();
    days.sort();
    let dates = days.into_iter().map(|day| date_of_day(day).expect("a Calendar day"));
    dates.map(|date| [(date.year - 1900) as u8, date.month as u8, date.day as u8]).collect()
}

pub fn letters(count: usize, rng: &mut Rng) -> Vec<u8> {
    (0..count).map(|_| rng.within(1..=255) as u8).collect()
}

fn text(rng: &mut Rng) -> Vec<u8> {
    let length = rng.within(0..=40);
    letters(if length < 28 { length } else { rng.pick(&[0, 26, 27]) }, rng)
}

fn note(rng: &mut Rng) -> Vec<u8> {
    let lines = match rng.below(8) {
        0..4 => 0,
        4 => 11,
        _ => rng.within(1..=10),
    };
    let longest = rng.pick(&[0, 3, 39]);
    let mut note = Vec::new();
    for _ in 0..lines {
        let length = if rng.one_in(2) { longest } else { rng.within(0..=longest) };
        note.extend(letters(length, rng));
        note.push(0);
    }
    if rng.one_in(2) {
        note.pop();
    }
    note
}

pub fn full_note(rng: &mut Rng) -> Vec<u8> {
    (0..11).flat_map(|_| [letters(39, rng), vec![0]].concat()).collect()
}

fn padding(rng: &mut Rng) -> Vec<u8> {
    match rng.below(8) {
        0 => vec![50, 0, 0],
        1 => rng.bytes(1),
        2 => Draft { padding: vec![], ..Draft::random(1, rng) }.bytes(),
        3 => vec![0; rng.within(1..=600)],
        _ => vec![],
    }
}
