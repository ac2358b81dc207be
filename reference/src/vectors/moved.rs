//! Records and days written out by hand: not, on its own day, or moved (document 02, R-7); and the fullest pages of
//! moved lines.

use super::pages::{END, HEAD};
use super::single::{asked, dated, from, monthly, position, to, to_do, weekly, yearly, Asked, ALL};
use crate::pages::Falls::{self, Moved, Not, OnItsDay};

const NONE: [Falls; 2] = [Not, Not];
const OWN: [Falls; 2] = [OnItsDay, OnItsDay];
const MOVED: [Falls; 2] = [Not, Moved];

/// February of 1980, 1992, 2000 and 2096 has 29 days, that of 1993 and 2099 has 28; 30 April 1993 is day 4,868.
fn wanted_days() -> Vec<Vec<Asked<Falls>>> {
    vec![
        asked(monthly(1, ALL), [(4_868, NONE), (4_869, OWN), (4_807, NONE)]),
        asked(monthly(28, ALL), [(4_441, OWN), (4_442, NONE), (4_807, OWN), (4_866, OWN), (4_868, NONE)]),
        asked(monthly(29, ALL), [(59, OWN), (4_441, NONE), (4_442, OWN), (4_806, NONE), (4_807, MOVED)]),
        asked(monthly(29, ALL), [(4_808, NONE), (4_867, OWN), (4_868, NONE), (7_363, NONE), (7_364, OWN)]),
        asked(monthly(29, ALL), [(42_427, NONE), (42_428, OWN), (43_523, MOVED)]),
        asked(monthly(30, ALL), [(59, MOVED), (4_441, NONE), (4_442, MOVED), (4_806, NONE), (4_807, MOVED)]),
        asked(monthly(30, ALL), [(4_837, OWN), (4_838, NONE), (4_867, NONE), (4_868, OWN), (7_364, MOVED)]),
        asked(monthly(30, ALL), [(42_428, MOVED), (43_523, MOVED), (43_798, OWN), (43_829, NONE)]),
        asked(monthly(31, ALL), [(30, OWN), (59, MOVED), (4_442, MOVED), (4_807, MOVED), (4_808, NONE)]),
        asked(monthly(31, ALL), [(4_837, NONE), (4_838, OWN), (4_867, NONE), (4_868, MOVED), (4_869, NONE)]),
        asked(monthly(31, ALL), [(7_364, MOVED), (42_428, MOVED), (43_523, MOVED), (43_798, MOVED)]),
        asked(monthly(31, ALL), [(43_828, NONE), (43_829, OWN)]),
        asked(yearly(2, 28, ALL), [(4_441, OWN), (4_442, NONE), (4_807, OWN), (4_808, NONE)]),
        asked(yearly(2, 29, ALL), [(59, OWN), (424, MOVED), (4_441, NONE), (4_442, OWN), (4_806, NONE)]),
        asked(
            yearly(2, 29, ALL),
            [(4_807, MOVED), (4_808, NONE), (4_868, NONE), (7_363, NONE), (7_364, OWN)],
        ),
        asked(yearly(2, 29, ALL), [(42_427, NONE), (42_428, OWN), (43_522, NONE), (43_523, MOVED)]),
        asked(yearly(3, 31, ALL), [(4_807, NONE), (4_838, OWN), (4_868, NONE)]),
        asked(yearly(4, 30, ALL), [(4_807, NONE), (4_868, OWN)]),
    ]
}

/// Spans that begin or end at the day to which a record is moved, and beside it.
fn spans() -> Vec<Vec<Asked<Falls>>> {
    const APRIL_29: [u8; 3] = [93, 4, 29];
    const APRIL_30: [u8; 3] = [93, 4, 30];
    const MAY_1: [u8; 3] = [93, 5, 1];
    const FEBRUARY_27: [u8; 3] = [93, 2, 27];
    const FEBRUARY_28: [u8; 3] = [93, 2, 28];
    const MARCH_1: [u8; 3] = [93, 3, 1];
    vec![
        asked(monthly(31, from(APRIL_29)), [(4_838, NONE), (4_867, NONE), (4_868, MOVED), (4_899, OWN)]),
        asked(monthly(31, from(APRIL_30)), [(4_838, NONE), (4_867, NONE), (4_868, MOVED), (4_899, OWN)]),
        asked(monthly(31, from(MAY_1)), [(4_868, NONE), (4_869, NONE), (4_899, OWN)]),
        asked(monthly(31, to(APRIL_29)), [(4_838, OWN), (4_867, NONE), (4_868, NONE)]),
        asked(monthly(31, to(APRIL_30)), [(4_838, OWN), (4_868, MOVED), (4_899, NONE)]),
        asked(monthly(31, [APRIL_30; 2]), [(4_838, NONE), (4_868, MOVED), (4_899, NONE)]),
        asked(yearly(2, 29, from(FEBRUARY_28)), [(4_442, NONE), (4_807, MOVED), (7_364, OWN)]),
        asked(yearly(2, 29, from(MARCH_1)), [(4_807, NONE), (4_808, NONE), (7_364, OWN)]),
        asked(yearly(2, 29, to(FEBRUARY_27)), [(4_442, OWN), (4_806, NONE), (4_807, NONE)]),
        asked(yearly(2, 29, to(FEBRUARY_28)), [(4_442, OWN), (4_807, MOVED), (7_364, NONE)]),
        asked(yearly(2, 29, [FEBRUARY_28; 2]), [(4_442, NONE), (4_807, MOVED), (7_364, NONE)]),
    ]
}

/// The other kinds are never moved: a dated record, Fridays, positions, a to-do, all about 30 April 1993.
fn other_kinds() -> Vec<Vec<Asked<Falls>>> {
    vec![
        asked(dated([93, 4, 30]), [(4_867, NONE), (4_868, OWN), (4_869, NONE)]),
        asked(weekly(6, ALL), [(4_861, OWN), (4_867, NONE), (4_868, OWN)]),
        asked(position(5, 6, ALL), [(4_861, NONE), (4_868, OWN)]),
        // February and April 1993 have four Sundays; 28 February is the fourth.
        asked(position(4, 1, ALL), [(4_807, OWN), (4_863, OWN)]),
        asked(position(5, 1, ALL), [(4_807, NONE), (4_863, NONE), (4_868, NONE)]),
        asked(to_do([93, 4, 30]), [(4_868, NONE)]),
    ]
}

pub fn all() -> Vec<Asked<Falls>> {
    [wanted_days(), spans(), other_kinds()].into_iter().flatten().flatten().collect()
}

/// A book of 65,535 bytes and its page of 30 April 1993 under last: records of the 31st with texts of such lengths.
fn full(lengths: &[usize]) -> (Vec<u8>, Vec<u8>) {
    let mut book = HEAD.to_vec();
    let mut page = format!("1993-04-30 Fri {}\n", lengths.len()).into_bytes();
    for &length in lengths {
        let text = vec![b'x'; length];
        book.extend([3, 16 + length as u8, 0, 0, 31, 0x02, 0x58, 80, 1, 1, 0x94, 0x02, 199, 12, 31, 0]);
        book.extend([length as u8, 0, 0]);
        book.extend(&text);
        page.extend([b"10:00-11:00* ", &text[..], b"\n"].concat());
    }
    book.extend(END);
    assert_eq!(book.len(), 65_535);
    (book, page)
}

/// Of moved lines alone: the most that a page can have, 3,448, and the most bytes, 58,415.
pub fn full_pages() -> [(Vec<u8>, Vec<u8>); 2] {
    let most_lines = full(&[vec![0; 3_447], vec![8]].concat());
    let most_bytes = full(&[vec![27; 1_423], vec![12; 2]].concat());
    assert_eq!((most_lines.1.len(), most_bytes.1.len()), (48_300, 58_415));
    [most_lines, most_bytes]
}
