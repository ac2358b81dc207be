//! Books and their printed pages, written out by hand.

use super::WHOLE_CASE;
use crate::pages::ShortMonth::{self, Last, Skip};

pub(super) const HEAD: &[u8] = &[0xFF, 0xFF, 1, 0, 1, 0xE0, 0x01, 30, 0, 1, 5, 0];
pub(super) const END: &[u8] = &[50, 0, 0];

/// A book, a day, a choice, and the page.
pub struct Shown {
    pub book: Vec<u8>,
    pub day: u16,
    pub choice: ShortMonth,
    pub page: &'static [u8],
}

fn shown<const N: usize>(records: [&[u8]; N], day: u16, choice: ShortMonth, page: &'static [u8]) -> Shown {
    Shown { book: [HEAD, &records.concat(), END].concat(), day, choice, page }
}

/// 15 March 1993, at 10:00.
const ZOE: &[u8] = &[1, 15, 0, 1, 93, 3, 15, 0x02, 0x58, 0x94, 0x02, 5, 3, 0, 0, b'Z', b'o', b'e'];
const ABE: &[u8] = &[1, 15, 0, 0, 93, 3, 15, 0x02, 0x58, 0x76, 0x02, 5, 3, 0, 0, b'A', b'b', b'e'];

/// At 9:59, without a text. By its low byte first the start would be 22,274.
const EARLY: &[u8] = &[1, 12, 0, 0, 93, 3, 15, 0x02, 0x57, 0xD0, 0x02, 0, 0, 0, 0];

/// Mondays at 10:00 from that day on.
const MIA: &[u8] =
    &[2, 19, 0, 0, 2, 0x02, 0x58, 93, 3, 15, 0x58, 0x02, 199, 12, 31, 0, 3, 0, 0, b'M', b'i', b'a'];

/// To-dos are on no page.
const TO_DO: &[u8] = &[6, 13, 0, 0, 1, 93, 3, 15, 0, 0, 0, 2, 0, 0, b'N', b'o'];

/// Slip: sorting equal minutes by text.
pub fn equal_minutes() -> Vec<Shown> {
    const PAGE: &[u8] =
        b"1993-03-15 Mon 4\n09:59-12:00 \n10:00-11:00 Zoe\n10:00-10:30 Abe\n10:00-10:00 Mia\n";
    const TURNED: &[u8] = b"1993-03-15 Mon 3\n10:00-10:00 Mia\n10:00-10:30 Abe\n10:00-11:00 Zoe\n";
    const TWICE: &[u8] = b"1993-03-15 Mon 3\n10:00-10:30 Abe\n10:00-11:00 Zoe\n10:00-10:30 Abe\n";
    vec![
        shown([ZOE, TO_DO, ABE, EARLY, MIA], 4_822, Skip, PAGE),
        shown([MIA, ABE, ZOE], 4_822, Last, TURNED),
        shown([ABE, ZOE, ABE], 4_822, Skip, TWICE),
        shown([ZOE, TO_DO, ABE, EARLY, MIA], 4_829, Skip, b"1993-03-22 Mon 1\n10:00-10:00 Mia\n"),
        shown([ZOE, TO_DO, ABE, EARLY, MIA], 4_815, Skip, b"1993-03-08 Mon 0\n"),
    ]
}

/// Slip: landing in padding. A record with a note, whose padding is a record and an end record.
pub fn padding() -> Vec<Shown> {
    const PADDED: &[u8] = &[
        1, 39, 0, 1, 93, 3, 15, 0x02, 0x58, 0x94, 0x02, 5, 3, 3, 0, b'D', b'e', b'p', b'a', 0, b'b', 1, 15,
        0, 1, 93, 3, 15, 0x02, 0x58, 0x94, 0x02, 5, 3, 0, 0, b'B', b'a', b'd', 50, 0, 0,
    ];
    vec![
        shown([PADDED], 4_822, Skip, b"1993-03-15 Mon 1\n10:00-11:00 Dep\n"),
        shown([PADDED, ABE], 4_822, Skip, b"1993-03-15 Mon 2\n10:00-11:00 Dep\n10:00-10:30 Abe\n"),
    ]
}

/// Slip: taking week 5 as "last". Sundays of week 5 and of week 4, all years.
pub fn week_5() -> Vec<Shown> {
    const FIFTH: &[u8] =
        &[4, 18, 0, 0, 5, 1, 0x02, 0x58, 80, 1, 1, 0x58, 0x02, 199, 12, 31, 0, 1, 0, 0, b'5'];
    const FOURTH: &[u8] =
        &[4, 18, 0, 0, 4, 1, 0x02, 0x58, 80, 1, 1, 0x58, 0x02, 199, 12, 31, 0, 1, 0, 0, b'4'];
    let mut all = vec![];
    for choice in [Skip, Last] {
        // April 1993 has four Sundays, May five.
        all.push(shown([FIFTH], 4_863, choice, b"1993-04-25 Sun 0\n"));
        all.push(shown([FIFTH, FOURTH], 4_863, choice, b"1993-04-25 Sun 1\n10:00-10:00 4\n"));
        all.push(shown([FIFTH, FOURTH], 4_891, choice, b"1993-05-23 Sun 1\n10:00-10:00 4\n"));
        all.push(shown([FIFTH, FOURTH], 4_898, choice, b"1993-05-30 Sun 1\n10:00-10:00 5\n"));
        all.push(shown([FIFTH], 4_868, choice, b"1993-04-30 Fri 0\n"));
    }
    all
}

/// Monthly on the 31st: to 30 April 1993, to 29 April, from 30 April on.
const TO_30: &[u8] = &[3, 17, 0, 1, 31, 0, 1, 80, 1, 1, 1, 0, 93, 4, 30, 0, 1, 0, 0, b'R'];
const TO_29: &[u8] = &[3, 17, 0, 1, 31, 0, 2, 80, 1, 1, 2, 0, 93, 4, 29, 0, 1, 0, 0, b'S'];
const FROM_30: &[u8] = &[3, 17, 0, 1, 31, 0, 3, 93, 4, 30, 3, 0, 199, 12, 31, 0, 1, 0, 0, b'T'];

/// Yearly on 29 February: all years; from 29 February 1992 to 27 February 1993; from 1 March 1992 on.
const LEAP: &[u8] = &[5, 18, 0, 0, 2, 29, 5, 0x9D, 80, 1, 1, 0x9F, 5, 199, 12, 31, 0, 1, 0, 0, b'U'];
const TO_27: &[u8] = &[5, 18, 0, 0, 2, 29, 5, 0x9E, 92, 2, 29, 0x9F, 5, 93, 2, 27, 0, 1, 0, 0, b'V'];
const FROM_1: &[u8] = &[5, 18, 0, 0, 2, 29, 5, 0x9F, 92, 3, 1, 0x9F, 5, 199, 12, 31, 0, 1, 0, 0, b'W'];

/// The short-month choice, and spans that begin or end in short months.
pub fn short_months() -> Vec<Shown> {
    let of = |day, choice, page| shown([TO_30, TO_29, FROM_30, LEAP, TO_27, FROM_1], day, choice, page);
    vec![
        of(4_868, Skip, b"1993-04-30 Fri 0\n"),
        of(4_868, Last, b"1993-04-30 Fri 2\n00:01-00:01* R\n00:03-00:03* T\n"),
        of(4_867, Last, b"1993-04-29 Thu 0\n"),
        of(4_838, Skip, b"1993-03-31 Wed 2\n00:01-00:01 R\n00:02-00:02 S\n"),
        of(4_838, Last, b"1993-03-31 Wed 2\n00:01-00:01 R\n00:02-00:02 S\n"),
        of(4_837, Last, b"1993-03-30 Tue 0\n"),
        of(4_899, Skip, b"1993-05-31 Mon 1\n00:03-00:03 T\n"),
        of(4_807, Skip, b"1993-02-28 Sun 0\n"),
        of(
            4_807,
            Last,
            b"1993-02-28 Sun 4\n00:01-00:01* R\n00:02-00:02* S\n23:57-23:59* U\n23:59-23:59* W\n",
        ),
        of(4_442, Skip, b"1992-02-29 Sat 2\n23:57-23:59 U\n23:58-23:59 V\n"),
        of(4_442, Last, b"1992-02-29 Sat 4\n00:01-00:01* R\n00:02-00:02* S\n23:57-23:59 U\n23:58-23:59 V\n"),
        of(4_441, Last, b"1992-02-28 Fri 0\n"),
        of(4_443, Last, b"1992-03-01 Sun 0\n"),
        of(4_808, Last, b"1993-03-01 Mon 0\n"),
    ]
}

/// On each 31st from 10:00 to 11:00; the same without a text; with an asterisk as its text; at 9:59.
const DEP: &[u8] =
    &[3, 19, 0, 1, 31, 0x02, 0x58, 80, 1, 1, 0x94, 0x02, 199, 12, 31, 5, 3, 0, 0, b'D', b'e', b'p'];
const BARE: &[u8] = &[3, 16, 0, 0, 31, 0x02, 0x58, 80, 1, 1, 0x94, 0x02, 199, 12, 31, 0, 0, 0, 0];
const STAR: &[u8] = &[3, 17, 0, 0, 31, 0x02, 0x58, 80, 1, 1, 0x94, 0x02, 199, 12, 31, 0, 1, 0, 0, b'*'];
const FIRST: &[u8] = &[3, 17, 0, 0, 31, 0x02, 0x57, 80, 1, 1, 0x58, 0x02, 199, 12, 31, 0, 1, 0, 0, b'A'];

/// On each 30th; on 30 April 1993, with an asterisk as its text; on Fridays.
const OWN: &[u8] =
    &[3, 19, 0, 0, 30, 0x02, 0x58, 80, 1, 1, 0x94, 0x02, 199, 12, 31, 0, 3, 0, 0, b'O', b'w', b'n'];
const DATED: &[u8] = &[1, 13, 0, 0, 93, 4, 30, 0x02, 0x58, 0x94, 0x02, 0, 1, 0, 0, b'*'];
const FRIDAY: &[u8] = &[2, 17, 0, 0, 6, 0x02, 0x58, 80, 1, 1, 0x94, 0x02, 199, 12, 31, 0, 1, 0, 0, b'F'];

/// Document 02, R-7: an asterisk straight after the end, beside lines without it.
pub fn moved() -> Vec<Shown> {
    let of =
        |day, choice, page| shown([DEP, OWN, BARE, DATED, STAR, TO_DO, FRIDAY, FIRST], day, choice, page);
    vec![
        shown([DEP], 4_868, Last, b"1993-04-30 Fri 1\n10:00-11:00* Dep\n"),
        shown([DEP], 4_868, Skip, b"1993-04-30 Fri 0\n"),
        shown([DEP], 4_899, Last, b"1993-05-31 Mon 1\n10:00-11:00 Dep\n"),
        shown([BARE], 4_868, Last, b"1993-04-30 Fri 1\n10:00-11:00* \n"),
        shown([LEAP], 42_428, Last, b"2096-02-29 Wed 1\n23:57-23:59 U\n"),
        shown([LEAP], 43_523, Last, b"2099-02-28 Sat 1\n23:57-23:59* U\n"),
        of(
            4_868,
            Last,
            b"1993-04-30 Fri 7\n09:59-10:00* A\n10:00-11:00* Dep\n10:00-11:00 Own\n10:00-11:00* \n\
              10:00-11:00 *\n10:00-11:00* *\n10:00-11:00 F\n",
        ),
        of(4_868, Skip, b"1993-04-30 Fri 3\n10:00-11:00 Own\n10:00-11:00 *\n10:00-11:00 F\n"),
        of(4_899, Skip, b"1993-05-31 Mon 4\n09:59-10:00 A\n10:00-11:00 Dep\n10:00-11:00 \n10:00-11:00 *\n"),
        of(4_899, Last, b"1993-05-31 Mon 4\n09:59-10:00 A\n10:00-11:00 Dep\n10:00-11:00 \n10:00-11:00 *\n"),
        of(
            7_364,
            Last,
            b"2000-02-29 Tue 5\n09:59-10:00* A\n10:00-11:00* Dep\n10:00-11:00* Own\n10:00-11:00* \n\
              10:00-11:00* *\n",
        ),
        of(
            43_798,
            Last,
            b"2099-11-30 Mon 5\n09:59-10:00* A\n10:00-11:00* Dep\n10:00-11:00 Own\n10:00-11:00* \n\
              10:00-11:00* *\n",
        ),
    ]
}

pub fn whole_case() -> Vec<Shown> {
    let of = |day, page| Shown { book: WHOLE_CASE.to_vec(), day, choice: Skip, page };
    vec![
        of(4_822, b"1993-03-15 Mon 1\n10:00-11:00 Dep\n"),
        of(4_821, b"1993-03-14 Sun 0\n"),
        of(4_823, b"1993-03-16 Tue 0\n"),
        of(0, b"1980-01-01 Tue 0\n"),
        of(43_829, b"2099-12-31 Thu 0\n"),
    ]
}

pub fn all() -> Vec<Shown> {
    [whole_case(), equal_minutes(), padding(), week_5(), short_months(), moved()]
        .into_iter()
        .flatten()
        .collect()
}
