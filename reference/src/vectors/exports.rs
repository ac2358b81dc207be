//! Books and their exports, written out by hand.

use super::calendars::{empty, whole_case};
use super::WHOLE_CASE;
use crate::pages::ShortMonth::{self, Last, Skip};

/// A book, a span, a choice, and the Calendar file.
pub struct Exported {
    pub book: Vec<u8>,
    pub first: u16,
    pub count: u16,
    pub choice: ShortMonth,
    pub file: Vec<u8>,
}

/// The case of document 01, with spans at whose edges its day lies or just does not.
fn of_the_case() -> Vec<Exported> {
    let of = |first, count, file| Exported { book: WHOLE_CASE.to_vec(), first, count, choice: Skip, file };
    let with = [(4_822, 1), (4_822, 366), (4_457, 366), (4_800, 30)];
    let without = [
        (4_822, 0),
        (4_823, 366),
        (4_456, 366),
        (4_821, 1),
        (0, 0),
        (0, 366),
        (43_829, 0),
        (43_829, 1),
        (43_464, 366),
    ];
    let with = with.map(|(first, count)| of(first, count, whole_case()));
    with.into_iter().chain(without.map(|(first, count)| of(first, count, empty()))).collect()
}

/// Alarm off, lead time 7, the last minute; granularity 45, so that the interval is 30 and minute 45 special.
/// A to-do; 15 March 1993 at 10:00; Mondays at 0:45 from that day on, with an alarm; yearly on the 29 February.
const BOOK: &[u8] = &[
    0xFF, 0xFF, 1, 0, 1, 0x9F, 0x05, 45, 0, 0, 7, 1, //
    6, 13, 0, 1, 1, 93, 3, 15, 0, 0, 0, 2, 0, 0, b'N', b'o', //
    1, 16, 0, 0xFE, 93, 3, 15, 0x02, 0x58, 0x9F, 0x05, 30, 2, 2, 0, b'Z', b'o', b'n', 0, //
    2, 19, 0, 1, 2, 0, 45, 93, 3, 15, 60, 0, 199, 12, 31, 0, 3, 0, 0, b'M', b'i', b'a', //
    5, 17, 0, 1, 2, 29, 0, 0, 80, 1, 1, 1, 0, 199, 12, 31, 0, 0, 0, 0, //
    50, 0, 0,
];

const IDENTIFICATION: &[u8] = &[0xB5, 0xA2, 0xB0, 0xB3, 0xB3, 0xB0, 0xA2, 0xB5];
const SETTINGS: &[u8] = &[7, 0, 0, 0, 1, 0, 30, 0, 1, 0, 0x9F, 0x05];

fn of_the_book() -> Vec<Exported> {
    let of = |first, count, choice, parts: &[&[u8]]| {
        let file = [&[IDENTIFICATION], parts].concat().concat();
        Exported { book: BOOK.to_vec(), first, count, choice, file }
    };
    let two_days = |choice| {
        of(
            4_820,
            10,
            choice,
            &[
                &[2, 0],
                SETTINGS,
                &[0; 42],
                &[0xD6, 0x12, 0, 0, 1, 0, 2, 0, 0xFF, 0x0F, 0xFF, 0x0F],
                &[0xDD, 0x12, 0, 0, 1, 0, 3, 0, 0xFF, 0x0F, 0xFF, 0x0F],
                &[0; 40],
                &[0, 0, 0xD6, 0x12, 1, 0, 0, 0, 15, 0],
                &[8, 3, 45, 0, b'M', b'i', b'a', 0, 7, 0, 0x58, 0x02, b'Z', b'o', 0],
                &[0; 39],
                &[0, 0, 0xDD, 0x12, 1, 0, 0, 0, 8, 0, 8, 3, 45, 0, b'M', b'i', b'a', 0],
                &[0; 46],
            ],
        )
    };
    let nothing = |choice| of(4_805, 5, choice, &[&[0, 0], SETTINGS, &[0; 42]]);
    // 28 February 1993, at midnight, with an alarm and no text.
    let leap_day = of(
        4_805,
        5,
        Last,
        &[
            &[1, 0],
            SETTINGS,
            &[0; 42],
            &[0xC7, 0x12, 0, 0, 1, 0, 2, 0, 0xFF, 0x0F, 0xFF, 0x0F],
            &[0; 52],
            &[0, 0, 0xC7, 0x12, 1, 0, 0, 0, 5, 0, 5, 1, 0, 0, 0],
            &[0; 49],
        ],
    );
    vec![two_days(Skip), two_days(Last), nothing(Skip), leap_day]
}

/// Dated records of 15 March 1993 at 0:15 with texts of such lengths.
fn of_lengths(lengths: &[usize], granularity: u8, head: [u8; 4], flags: u8, blocks: usize) -> Exported {
    let mut book = [0xFF, 0xFF, 1, 0, 1, 0, 0, granularity, 0, 1, 0, 0].to_vec();
    let mut list = vec![];
    for &length in lengths {
        book.extend([1, 12 + length as u8, 0, 0, 93, 3, 15, 0, 15, 15, 0, 0, length as u8, 0, 0]);
        book.extend(vec![b'x'; length]);
        list.extend([5 + length as u8, flags, 15, 0]);
        list.extend(vec![b'x'; length]);
        list.push(0);
    }
    book.extend([50, 0, 0]);
    let mut file = [IDENTIFICATION, &[1, 0, 0, 0, 1, 0], &head, &[1, 0, 0, 0], &[0; 42]].concat();
    file.extend([0xD6, 0x12, 0, 0, 0, 0, 2, 0, 0xFF, 0x0F, 0xFF, 0x0F]);
    file.extend([0; 52]);
    file.extend([0, 0, 0xD6, 0x12, 1, 0, 0, 0, list.len() as u8, 0]);
    file.extend(&list);
    file.resize(128 + 64 * blocks, 0);
    Exported { book, first: 4_800, count: 60, choice: Skip, file }
}

/// Blocks of 63, 64, 65, 128 and 129 bytes, and minute 15 for each interval.
fn of_any_length() -> Vec<Exported> {
    vec![
        of_lengths(&[22, 21], 30, [1, 0, 30, 0], 2, 1),
        of_lengths(&[22, 22], 30, [1, 0, 30, 0], 2, 1),
        of_lengths(&[22, 23], 30, [1, 0, 30, 0], 2, 2),
        of_lengths(&[27, 27, 27, 17], 30, [1, 0, 30, 0], 2, 2),
        of_lengths(&[27, 27, 27, 18], 30, [1, 0, 30, 0], 2, 3),
        of_lengths(&[0], 15, [0, 0, 15, 0], 0, 1),
        of_lengths(&[0], 60, [2, 0, 60, 0], 2, 1),
        of_lengths(&[0], 1, [1, 0, 30, 0], 2, 1),
        of_lengths(&[0], 5, [1, 0, 30, 0], 2, 1),
        of_lengths(&[0], 45, [1, 0, 30, 0], 2, 1),
        of_lengths(&[0], 120, [1, 0, 30, 0], 2, 1),
    ]
}

pub fn all() -> Vec<Exported> {
    [of_the_case(), of_the_book(), of_any_length()].into_iter().flatten().collect()
}

/// First day and count of spans, and whether they are in range.
pub const SPANS: &[(u16, u16, bool)] = &[
    (0, 0, true),
    (0, 366, true),
    (0, 367, false),
    (4_822, 366, true),
    (4_822, 367, false),
    (4_822, 65_535, false),
    (43_464, 366, true),
    (43_465, 366, false),
    (43_829, 0, true),
    (43_829, 1, true),
    (43_829, 2, false),
    (43_830, 0, false),
    (43_830, 1, false),
    // In two bytes the sum would be small.
    (43_829, 21_707, false),
    (65_535, 0, false),
    (65_535, 1, false),
    (65_535, 65_535, false),
    (65_170, 366, false),
];
