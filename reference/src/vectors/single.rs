//! Books of one record written out by hand, to be asked about days: parts for the vectors beside.

use super::pages::{END, HEAD};

/// A book of one record, a day, and the answers under skip and under last.
pub struct Asked<A> {
    pub book: Vec<u8>,
    pub day: u16,
    pub answers: [A; 2],
}

/// One record and several days.
pub(super) fn asked<A, const N: usize>(record: Vec<u8>, days: [(u16, [A; 2]); N]) -> Vec<Asked<A>> {
    let book = book(&record);
    days.map(|(day, answers)| Asked { book: book.clone(), day, answers }).into()
}

pub fn book(record: &[u8]) -> Vec<u8> {
    [HEAD, record, END].concat()
}

/// The first and the last date.
pub type Dates = [[u8; 3]; 2];
pub const ALL: Dates = [[80, 1, 1], [199, 12, 31]];

pub(super) fn from(date: [u8; 3]) -> Dates {
    [date, ALL[1]]
}

pub(super) fn to(date: [u8; 3]) -> Dates {
    [ALL[0], date]
}

/// From 10:00 to 11:00, without a text.
pub fn dated(date: [u8; 3]) -> Vec<u8> {
    [&[1, 12, 0, 0], &date[..], &[0x02, 0x58, 0x94, 0x02, 0, 0, 0, 0]].concat()
}

/// From 10:00 to 11:00, without a text. `rule`: the fields between state and start minute.
fn repeated(kind: u8, rule: &[u8], [first, last]: Dates) -> Vec<u8> {
    let head = [kind, 15 + rule.len() as u8, 0, 0];
    [&head[..], rule, &[0x02, 0x58], &first, &[0x94, 0x02], &last, &[0, 0, 0, 0]].concat()
}

pub fn weekly(weekday: u8, dates: Dates) -> Vec<u8> {
    repeated(2, &[weekday], dates)
}

pub fn monthly(day: u8, dates: Dates) -> Vec<u8> {
    repeated(3, &[day], dates)
}

pub fn position(week: u8, weekday: u8, dates: Dates) -> Vec<u8> {
    repeated(4, &[week, weekday], dates)
}

pub fn yearly(month: u8, day: u8, dates: Dates) -> Vec<u8> {
    repeated(5, &[month, day], dates)
}

/// Not checked off.
pub fn to_do(start: [u8; 3]) -> Vec<u8> {
    [&[6, 11, 0, 0, 1], &start[..], &[0, 0, 0, 0, 0, 0]].concat()
}
