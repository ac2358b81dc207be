//! Books written out by hand, byte for byte, with what a reader is to give; Calendar files, day chains, pages, moved
//! showings, reasons, command lines and bytes after the end in the files beside.

pub mod calendars;
pub mod chains;
pub mod commands;
pub mod exports;
pub mod fillers;
pub mod moved;
pub mod pages;
pub mod reasons;
pub mod single;

use crate::days::Date;
use crate::records::{Entry, Record, Rule, Times};

/// Document 01, "One whole case": one dated record at 12, its text at 27.
pub const WHOLE_CASE: [u8; 33] = [
    0xFF, 0xFF, 0x01, 0x00, 0x01, 0xE0, 0x01, 0x1E, 0x00, 0x01, 0x05, 0x00, 0x01, 0x0F, 0x00, 0x01, 0x5D,
    0x03, 0x0F, 0x02, 0x58, 0x94, 0x02, 0x05, 0x03, 0x00, 0x00, 0x44, 0x65, 0x70, 0x32, 0x00, 0x00,
];

const HEAD: &[u8] = &[0xFF, 0xFF, 1, 0, 1, 0x9F, 0x05, 0xD0, 0x02, 0, 30, 1];

/// Unnamed state bits set; the first date, the longest time, no text.
const DATED: &[u8] = &[1, 12, 0, 0x81, 80, 1, 1, 0, 0, 0x9F, 0x05, 30, 0, 0, 0];

/// Tuesdays at 5:00; a note of three lines, the middle one empty, the last without a zero.
const WEEKLY: &[u8] = &[
    2, 22, 0, 0, 3, 0x01, 0x2C, 93, 3, 16, 0x2C, 0x01, 199, 12, 31, 0, 2, 4, 0, b'G', b'o', b'a', 0, 0, b'b',
];

/// Bit 0 clear and all others set; one day long; padding that looks like an end record.
const MONTHLY_BY_DATE: &[u8] = &[
    3, 22, 0, 0xFE, 31, 0x05, 0x9F, 100, 2, 29, 0x9F, 0x05, 100, 2, 29, 15, 1, 0, 0, b'R', 50, 0, 0, 0xFF,
    0xFF,
];

/// At 0:05, which is 21:20 when read low byte first; a text of 27 bytes.
const MONTHLY_BY_POSITION: &[u8] = &[
    4, 44, 0, 1, 5, 1, 0x00, 0x05, 80, 1, 1, 0x05, 0x00, 199, 12, 31, 1, 27, 0, 0, b'J', b'u', b'd', b'g',
    b'e', b'\'', b's', b' ', b'l', b'i', b's', b't', b',', b' ', b'f', b'i', b'f', b't', b'h', b' ', b'S',
    b'u', b'n', b'd', b'a', b'y', b'!',
];

/// 29 February; a note of one empty line.
const YEARLY: &[u8] =
    &[5, 21, 0, 0, 2, 29, 0x02, 0x58, 92, 2, 29, 0x59, 0x02, 93, 2, 28, 30, 3, 1, 0, b'D', b'e', b'p', 0];

/// Checked off, and that before its start date.
const DONE: &[u8] = &[6, 15, 0, 0x03, 9, 93, 3, 15, 93, 3, 1, 4, 0, 0, b'F', b'i', b'l', b'e'];

/// Not checked off; other state bits set.
const TO_DO: &[u8] = &[6, 11, 0, 0xFC, 1, 199, 12, 31, 0, 0, 0, 0, 0, 0];

const END: &[u8] = &[50, 0, 0];

/// The records above, at 12, 27, 52, 77, 124, 148 and 166; the end record at 180.
pub fn every_kind() -> Vec<u8> {
    [HEAD, DATED, WEEKLY, MONTHLY_BY_DATE, MONTHLY_BY_POSITION, YEARLY, DONE, TO_DO, END].concat()
}

/// What a writer is to make of those that it would not write as they are: other bits 0, and no padding.
const WRITTEN_DATED: &[u8] = &[1, 12, 0, 0x01, 80, 1, 1, 0, 0, 0x9F, 0x05, 30, 0, 0, 0];
const WRITTEN_MONTHLY_BY_DATE: &[u8] =
    &[3, 17, 0, 0x00, 31, 0x05, 0x9F, 100, 2, 29, 0x9F, 0x05, 100, 2, 29, 15, 1, 0, 0, b'R'];
const WRITTEN_TO_DO: &[u8] = &[6, 11, 0, 0x00, 1, 199, 12, 31, 0, 0, 0, 0, 0, 0];

/// `every_kind` written again, part by part: what `open`, each `add` and `close` write.
pub const EVERY_KIND_WRITTEN: [&[u8]; 9] = [
    HEAD,
    WRITTEN_DATED,
    WEEKLY,
    WRITTEN_MONTHLY_BY_DATE,
    MONTHLY_BY_POSITION,
    YEARLY,
    DONE,
    WRITTEN_TO_DO,
    END,
];

pub fn every_kind_records() -> Vec<Record> {
    let date = |year, month, day| Date { year, month, day };
    let times = |start, end, lead| Times { start, end, lead };
    let repeated = |rule, first, last, times| Entry::Repeated { rule, first, last, times };
    vec![
        Record {
            at: 12,
            flag: true,
            entry: Entry::Dated { date: date(1980, 1, 1), times: times(0, 1_439, 30) },
            text: 27..27,
            note: 27..27,
        },
        Record {
            at: 27,
            flag: false,
            entry: repeated(
                Rule::Weekly { weekday: 3 },
                date(1993, 3, 16),
                date(2099, 12, 31),
                times(300, 300, 0),
            ),
            text: 46..48,
            note: 48..52,
        },
        Record {
            at: 52,
            flag: false,
            entry: repeated(
                Rule::MonthlyByDate { day: 31 },
                date(2000, 2, 29),
                date(2000, 2, 29),
                times(1_439, 1_439, 15),
            ),
            text: 71..72,
            note: 72..72,
        },
        Record {
            at: 77,
            flag: true,
            entry: repeated(
                Rule::MonthlyByPosition { week: 5, weekday: 1 },
                date(1980, 1, 1),
                date(2099, 12, 31),
                times(5, 5, 1),
            ),
            text: 97..124,
            note: 124..124,
        },
        Record {
            at: 124,
            flag: false,
            entry: repeated(
                Rule::Yearly { month: 2, day: 29 },
                date(1992, 2, 29),
                date(1993, 2, 28),
                times(600, 601, 30),
            ),
            text: 144..147,
            note: 147..148,
        },
        Record {
            at: 148,
            flag: true,
            entry: Entry::ToDo { priority: 9, start: date(1993, 3, 15), check_off: Some(date(1993, 3, 1)) },
            text: 162..166,
            note: 166..166,
        },
        Record {
            at: 166,
            flag: false,
            entry: Entry::ToDo { priority: 1, start: date(2099, 12, 31), check_off: None },
            text: 180..180,
            note: 180..180,
        },
    ]
}

/// Where `every_kind` is changed, to what, and the number and place that it is then refused with.
pub const FAULTS: &[(usize, &[u8], u32, usize)] = &[
    (0, &[0xFE], 2, 0),
    (2, &[2], 2, 0),
    (4, &[2], 2, 0),
    (5, &[0xA0, 0x05], 3, 5),
    (7, &[0, 0], 3, 5),
    (7, &[0xD1, 0x02], 3, 5),
    (9, &[2], 3, 5),
    (10, &[31], 3, 5),
    (11, &[2], 3, 5),
    // Dated.
    (12, &[0], 5, 12),
    (12, &[7], 5, 12),
    (12, &[50], 5, 12),
    (12, &[50, 0xFF, 0xFF], 5, 12),
    (12, &[50, 0, 0], 9, 15),
    (13, &[0xFF, 0xFF], 4, 12),
    (13, &[169], 4, 12),
    (13, &[168], 4, 183),
    (13, &[11], 6, 12),
    (16, &[79], 7, 12),
    (16, &[200], 7, 12),
    (16, &[93, 2, 29], 7, 12),
    (17, &[0], 7, 12),
    (17, &[13], 7, 12),
    (18, &[0], 7, 12),
    (18, &[32], 7, 12),
    (19, &[0x05, 0xA0], 7, 12),
    (21, &[0xA0, 0x05], 7, 12),
    (23, &[31], 7, 12),
    (24, &[1], 6, 12),
    (25, &[1], 6, 12),
    // Weekly.
    (31, &[0], 7, 27),
    (31, &[8], 7, 27),
    (37, &[0x2B, 0x01], 7, 27),
    (39, &[93, 3, 15], 7, 27),
    (39, &[93, 2, 28], 7, 27),
    (39, &[92, 12, 31], 7, 27),
    (44, &[5], 6, 27),
    (46, &[0], 8, 27),
    (47, &[0], 8, 27),
    // Monthly by date.
    (56, &[0], 7, 52),
    (56, &[32], 7, 52),
    // Monthly by position.
    (81, &[0], 7, 77),
    (81, &[6], 7, 77),
    (82, &[0], 7, 77),
    (82, &[8], 7, 77),
    (94, &[28], 6, 77),
    // Yearly.
    (128, &[2, 30], 7, 124),
    (128, &[4, 31], 7, 124),
    (128, &[0, 1], 7, 124),
    (128, &[13, 1], 7, 124),
    // To-do, checked off: without its bit, without its date, with a day that does not exist.
    (151, &[1], 7, 148),
    (156, &[0, 0, 0], 7, 148),
    (156, &[93, 2, 29], 7, 148),
    (152, &[0], 7, 148),
    (152, &[10], 7, 148),
    // To-do, not checked off: with its bit, with one byte of a date.
    (169, &[0xFE], 7, 166),
    (174, &[93], 7, 166),
    (175, &[1], 7, 166),
    (176, &[1], 7, 166),
    // The end record.
    (180, &[1], 6, 180),
    (180, &[51], 5, 180),
    (181, &[1], 5, 180),
    (182, &[1], 5, 180),
];

/// To how many bytes `every_kind` is cut, and the number and place that it is then refused with.
pub const CUTS: &[(usize, u32, usize)] = &[
    (0, 2, 0),
    (4, 2, 0),
    (5, 3, 5),
    (11, 3, 5),
    (12, 4, 12),
    (14, 4, 12),
    (15, 4, 12),
    (26, 4, 12),
    (27, 4, 27),
    (76, 4, 52),
    (179, 4, 166),
    (180, 4, 180),
    (182, 4, 180),
];

/// Where a file is changed, and to what.
type Change = (usize, &'static [u8]);

/// Several faults of `every_kind` at once: its changes, its length (cut, or filled with zeros), and the number and
/// place of the one that counts.
pub const SEVERAL_FAULTS: &[(&[Change], usize, u32, usize)] = &[
    // The length, the identification, the settings.
    (&[], 65_536, 1, 0),
    (&[(0, &[0xFE])], 65_536, 1, 0),
    (&[(5, &[0xA0, 0x05])], 65_536, 1, 0),
    (&[(46, &[0])], 65_536, 1, 0),
    (&[(0, &[0xFE]), (5, &[0xA0, 0x05])], 183, 2, 0),
    (&[(4, &[2])], 11, 2, 0),
    (&[(9, &[2]), (12, &[7])], 183, 3, 5),
    (&[(9, &[2])], 12, 3, 5),
    // A record's three head bytes, its type, its body, 6, 7, 8.
    (&[(12, &[7])], 13, 4, 12),
    (&[(12, &[7])], 14, 4, 12),
    (&[(12, &[7])], 15, 5, 12),
    (&[(12, &[50])], 15, 5, 12),
    (&[(12, &[7]), (13, &[0xFF, 0xFF])], 183, 5, 12),
    (&[(24, &[28])], 26, 4, 12),
    (&[(16, &[79])], 26, 4, 12),
    (&[(46, &[0])], 51, 4, 27),
    (&[(24, &[1]), (23, &[31])], 183, 6, 12),
    (&[(44, &[5]), (46, &[0])], 183, 6, 27),
    (&[(31, &[0]), (46, &[0])], 183, 7, 27),
    // Of two records the first; the end record; the bytes after it.
    (&[(23, &[31]), (27, &[7])], 183, 7, 12),
    (&[(46, &[0]), (56, &[0])], 183, 8, 27),
    (&[(46, &[0])], 182, 8, 27),
    (&[(27, &[7]), (180, &[51])], 183, 5, 27),
    (&[(180, &[51])], 182, 4, 180),
    (&[(46, &[0])], 184, 8, 27),
    (&[(181, &[1])], 184, 5, 180),
    (&[(180, &[1])], 65_535, 6, 180),
];

/// `every_kind` with these.
pub fn with_faults(changes: &[Change], length: usize) -> Vec<u8> {
    let mut file = every_kind();
    for (at, bytes) in changes {
        file[*at..at + bytes.len()].copy_from_slice(bytes);
    }
    file.resize(length, 0);
    file
}

/// Start, granularity, lead, the buffer's length, and the number that `open` gives.
pub const OPENINGS: &[(u16, u16, u16, usize, u32)] = &[
    (480, 30, 5, 15, 0),
    (480, 30, 5, 70_000, 0),
    (0, 1, 0, 15, 0),
    (1_439, 720, 30, 15, 0),
    (1_440, 30, 5, 15, 3),
    (65_535, 30, 5, 15, 3),
    (480, 0, 5, 15, 3),
    (480, 721, 5, 15, 3),
    (480, 30, 31, 15, 3),
    (480, 30, 256, 15, 3),
    (480, 30, 5, 14, 12),
    (480, 30, 5, 12, 12),
    (480, 30, 5, 0, 12),
    (480, 0, 5, 14, 3),
    (480, 30, 31, 0, 3),
];

/// Used and closed, the buffer's length, and the number that `close` gives.
pub const CLOSINGS: &[(usize, bool, usize, u32)] = &[
    (12, false, 15, 0),
    (12, false, 14, 12),
    (12, false, 0, 12),
    (13, false, 70_000, 0),
    (11, false, 15, 14),
    (0, false, 0, 14),
    (12, true, 15, 14),
    (15, true, 15, 14),
    (65_532, false, 70_000, 0),
    (65_533, false, 70_000, 12),
    (65_535, false, 70_000, 12),
    (65_548, false, 70_000, 12),
    (usize::MAX - 3, false, 70_000, 12),
    (usize::MAX - 2, false, 70_000, 12),
    (usize::MAX, false, 70_000, 12),
    (usize::MAX, true, 70_000, 14),
];

/// Adds the record of the whole case, with another lead, text and note.
pub struct Adding {
    /// Used and closed.
    pub state: (usize, bool),
    pub room: usize,
    pub lead: u16,
    pub text: &'static [u8],
    pub note: &'static [u8],
    pub number: u32,
}

const fn adding(state: (usize, bool), room: usize, number: u32) -> Adding {
    Adding { state, room, lead: 5, text: b"Dep", note: b"", number }
}

const fn faulty(used: usize, lead: u16, text: &'static [u8], note: &'static [u8], number: u32) -> Adding {
    Adding { state: (used, false), room: 600, lead, text, note, number }
}

/// The record of the whole case has 18 bytes, 15 without its text.
pub const ADDINGS: &[Adding] = &[
    adding((12, false), 33, 0),
    adding((12, false), 32, 12),
    adding((12, false), 0, 12),
    adding((13, false), 34, 0),
    adding((13, false), 33, 12),
    adding((11, false), 33, 14),
    adding((0, false), 33, 14),
    adding((0, true), 0, 14),
    adding((12, true), 33, 14),
    adding((65_514, false), 65_535, 0),
    adding((65_514, false), 65_534, 12),
    adding((65_514, false), 70_000, 0),
    adding((65_515, false), 70_000, 12),
    adding((65_535, false), 70_000, 12),
    adding((65_548, false), 70_000, 12),
    adding((1 << 32, false), 70_000, 12),
    adding((usize::MAX - 21, false), 70_000, 12),
    adding((usize::MAX - 20, false), 70_000, 12),
    adding((usize::MAX - 17, false), 70_000, 12),
    adding((usize::MAX, false), 70_000, 12),
    adding((usize::MAX, true), 70_000, 14),
    // Edges of texts and notes.
    faulty(12, 5, &[b'x'; 27], b"", 0),
    faulty(12, 5, &[b'x'; 28], b"", 6),
    faulty(12, 5, &[b'x'; 256], b"", 6),
    faulty(12, 30, b"", b"", 0),
    faulty(12, 31, b"", b"", 7),
    faulty(12, 256, b"", b"", 7),
    faulty(12, 5, &[0], b"", 8),
    faulty(12, 5, b"Dep\0", b"", 8),
    faulty(12, 5, b"", &[b'x'; 39], 0),
    faulty(12, 5, b"", &[b'x'; 40], 8),
    faulty(12, 5, b"", &[0; 11], 0),
    faulty(12, 5, b"", &[0; 12], 8),
    faulty(12, 5, b"", &[0; 440], 8),
    faulty(12, 5, b"", &[0; 441], 8),
    faulty(12, 5, b"", &[b'x'; 441], 8),
    faulty(12, 5, b"", &[b'x'; 65_536], 8),
    // All faults at once, and then one less from row to row.
    faulty(11, 31, &[0; 28], &[0; 12], 14),
    faulty(600, 31, &[0; 28], &[0; 12], 6),
    faulty(600, 31, &[0; 27], &[0; 12], 7),
    faulty(600, 30, &[0; 27], &[0; 12], 8),
    faulty(600, 30, &[9; 27], &[0; 12], 8),
    faulty(600, 30, &[9; 27], &[0; 11], 12),
    faulty(544, 30, &[9; 27], &[0; 11], 0),
];
