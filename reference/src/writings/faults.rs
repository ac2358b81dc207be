//! Faults of what is handed over, each with the number that it is refused with.

use super::Item;
use crate::books::{changes, letters, Change, Draft};
use crate::rng::Rng;
use apptbook::raw::book::{BookAnswer, RecordAnswer};

pub struct Fault {
    pub name: String,
    pub number: u32,
    kinds: &'static [u16],
    edit: Edit,
}

enum Edit {
    One(fn(&mut RecordAnswer) -> &mut u16, u16),
    Two(fn(&mut RecordAnswer) -> [&mut u16; 2], [u16; 2]),
    Three(fn(&mut RecordAnswer) -> [&mut u16; 3], [u16; 3]),
    Record(fn(&mut RecordAnswer)),
    Text(usize),
    Note(usize),
    /// A change made to books, of text or note.
    Change(Change),
}

impl Fault {
    pub fn fits(&self, kind: u16) -> bool {
        self.kinds.contains(&kind)
    }

    /// Whether it takes time to make.
    pub fn is_long(&self) -> bool {
        matches!(self.edit, Edit::Text(1_000..) | Edit::Note(1_000..))
    }

    pub fn apply(&self, item: &mut Item, rng: &mut Rng) {
        let record = &mut item.record;
        match &self.edit {
            Edit::One(field, value) => *field(record) = *value,
            Edit::Two(fields, values) => put(fields(record), values),
            Edit::Three(fields, values) => put(fields(record), values),
            Edit::Record(edit) => edit(record),
            Edit::Text(length) => item.text = some_bytes(*length, rng),
            Edit::Note(length) => item.note = some_bytes(*length, rng),
            Edit::Change(change) => {
                let mut draft = Draft::random(1, rng);
                (draft.text, draft.note) = (item.text.clone(), item.note.clone());
                change.apply(&mut draft, rng);
                (item.text, item.note) = (draft.text, draft.note);
            }
        }
        item.faults.push((self.name.clone(), self.number));
    }
}

fn put<const N: usize>(fields: [&mut u16; N], values: &[u16; N]) {
    for (field, value) in fields.into_iter().zip(values) {
        *field = *value;
    }
}

fn some_bytes(length: usize, rng: &mut Rng) -> Vec<u8> {
    if rng.one_in(2) {
        letters(length, rng)
    } else {
        vec![0; length]
    }
}

pub fn faults() -> Vec<Fault> {
    let mut faults = vec![];
    let mut fault = |name, number, kinds, edit| faults.push(Fault { name, number, kinds, edit });
    for &(name, kinds, field, values) in ONES {
        for &value in values {
            fault(format!("{name} {value}"), 7, kinds, Edit::One(field, value));
        }
    }
    for &values in NO_YEARLY_DAYS {
        fault(format!("yearly {values:?}"), 7, &[5], Edit::Two(|r| [&mut r.month, &mut r.day], values));
    }
    for &(name, kinds, fields) in DATES {
        for &values in UNREAL {
            fault(format!("{name} {values:?}"), 7, kinds, Edit::Three(fields, values));
        }
    }
    for &(name, kinds, edit) in RECORDS {
        fault(name.into(), 7, kinds, Edit::Record(edit));
    }
    for length in [28, 29, 255, 256, 283, 65_536, 65_563] {
        fault(format!("text of {length}"), 6, ALL, Edit::Text(length));
    }
    for length in [441, 512, 952, 65_536, 65_537, 65_976] {
        fault(format!("note of {length}"), 8, ALL, Edit::Note(length));
    }
    for change in changes().into_iter().filter(|change| change.number == 8) {
        fault(format!("book's {}", change.name), 8, ALL, Edit::Change(change));
    }
    faults
}

const ALL: &[u16] = &[1, 2, 3, 4, 5, 6];
const TIMED: &[u16] = &[1, 2, 3, 4, 5];
const REPEATED: &[u16] = &[2, 3, 4, 5];

type One = (&'static str, &'static [u16], fn(&mut RecordAnswer) -> &mut u16, &'static [u16]);

/// Fields, the kinds that have them, and values out of range: some would be in range as a single byte.
const ONES: &[One] = &[
    ("kind", ALL, |r| &mut r.kind, &[0, 7, 50, 255, 256, 257, 258, 259, 260, 261, 262, 306, 65_535]),
    ("weekday", &[2, 4], |r| &mut r.weekday, &[0, 8, 255, 256, 257, 65_535]),
    ("week", &[4], |r| &mut r.week, &[0, 6, 255, 256, 257, 65_535]),
    ("day", &[3], |r| &mut r.day, &[0, 32, 255, 256, 257, 65_535]),
    ("priority", &[6], |r| &mut r.priority, &[0, 10, 255, 256, 257, 65_535]),
    ("start", TIMED, |r| &mut r.start, &[1_440, 32_768, 65_535]),
    ("end", TIMED, |r| &mut r.end, &[1_440, 32_768, 65_535]),
    ("lead", TIMED, |r| &mut r.lead, &[31, 255, 256, 286, 65_535]),
];

const NO_YEARLY_DAYS: &[[u16; 2]] = &[
    [2, 30],
    [2, 31],
    [4, 31],
    [6, 31],
    [9, 31],
    [11, 31],
    [0, 1],
    [13, 1],
    [257, 1],
    [1, 0],
    [1, 32],
    [1, 257],
    [65_535, 65_535],
];

type Three = (&'static str, &'static [u16], fn(&mut RecordAnswer) -> [&mut u16; 3]);

const DATES: &[Three] = &[
    ("first", ALL, |r| [&mut r.first_year, &mut r.first_month, &mut r.first_day]),
    ("last", REPEATED, |r| [&mut r.last_year, &mut r.last_month, &mut r.last_day]),
    ("check-off", &[6], |r| {
        r.checked_off = true;
        [&mut r.check_off_year, &mut r.check_off_month, &mut r.check_off_day]
    }),
];

/// No dates from 1980 to 2099. The years 1737 and 2249 would have 1993's byte.
const UNREAL: &[[u16; 3]] = &[
    [1979, 12, 31],
    [2100, 1, 1],
    [0, 0, 0],
    [93, 3, 15],
    [1737, 3, 15],
    [2249, 3, 15],
    [1993, 0, 1],
    [1993, 13, 1],
    [1993, 259, 15],
    [1993, 3, 0],
    [1993, 3, 32],
    [1993, 3, 271],
    [1993, 4, 31],
    [1993, 2, 29],
    [2000, 2, 30],
    [65_535, 65_535, 65_535],
];

type OfRecord = (&'static str, &'static [u16], fn(&mut RecordAnswer));

const RECORDS: &[OfRecord] = &[
    ("end a minute before the start", TIMED, |r| {
        r.start = r.start.max(1);
        r.end = r.start - 1;
    }),
    // The other way round when read low byte first.
    ("end before the start by its high byte", TIMED, |r| (r.start, r.end) = (256, 255)),
    ("last a day before first", REPEATED, |r| dates(r, [1993, 3, 16], [1993, 3, 15])),
    ("last a month before first", REPEATED, |r| dates(r, [1993, 4, 1], [1993, 3, 31])),
    ("last a year before first", REPEATED, |r| dates(r, [1994, 1, 1], [1993, 12, 31])),
];

fn dates(r: &mut RecordAnswer, first: [u16; 3], last: [u16; 3]) {
    [r.first_year, r.first_month, r.first_day] = first;
    [r.last_year, r.last_month, r.last_day] = last;
}

type Setting = (fn(&mut BookAnswer) -> &mut u16, &'static [u16]);

/// Refused with 3.
pub const BAD_SETTINGS: &[Setting] = &[
    (|settings| &mut settings.start, &[1_440, 32_768, 65_535]),
    (|settings| &mut settings.granularity, &[0, 721, 32_768, 65_535]),
    (|settings| &mut settings.lead, &[31, 255, 256, 286, 65_535]),
];
