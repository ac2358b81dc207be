//! Spans of days, and books to be exported.

use super::drafts::{Draft, Field};
use super::file::File;
use super::near::{edge_day, near};
use super::small;
use crate::civil;
use crate::days::LAST_DAY;
use crate::rng::Rng;

#[derive(Clone, Copy, Debug)]
pub struct Span {
    pub first: u16,
    pub count: u16,
}

impl Span {
    /// In range, and often at an edge.
    pub fn random(rng: &mut Rng) -> Self {
        let first = edge_day(rng);
        let count = rng.pick(&[0, 1, 2, 7, 31, 60, 365, 366]);
        let most = LAST_DAY + 1 - first;
        let count = if rng.one_in(4) { rng.within(0..=366) as u16 } else { count };
        Span { first, count: count.min(most) }
    }
}

/// A book of records near to any days of the span.
pub fn book_of_span(span: Span, records: usize, rng: &mut Rng) -> File {
    let last = span.first + span.count.max(1) - 1;
    let mut record = || {
        let day = rng.within(span.first.into()..=last.into()) as u16;
        near(day, rng.within(1..=6) as u8, rng)
    };
    let records: Vec<Draft> = (0..records).map(|_| record()).collect();
    let mut file = File::unfilled(&records, rng);
    // Granularities that have a code of their own, and those beside them.
    if rng.one_in(2) {
        file.put(7, &[rng.pick(&[14, 15, 16, 29, 30, 31, 45, 59, 60, 61]), 0]);
    }
    file.fill_often(rng);
    file
}

/// From Monday, 15 March 1993, to Monday, 14 March 1994, a year later: 53 Mondays.
pub const CROWDED_SPAN: Span = Span { first: 4_822, count: 366 };

/// A book of so many records on Mondays with the longest text, and so many on other days without a text, one on
/// each of the first ones.
pub fn crowded(mondays: usize, others: usize) -> File {
    let mut rng = Rng::new(1);
    let monday = |_| {
        let mut draft = Draft { text: vec![b'x'; 27], ..small(2, &mut rng) };
        draft.put(Field::Weekday, [2]);
        draft.put(Field::Dates, [80, 1, 1, 199, 12, 31]);
        draft
    };
    let mut records: Vec<Draft> = (0..mondays).map(monday).collect();
    for day in (CROWDED_SPAN.first..).filter(|day| day % 7 != CROWDED_SPAN.first % 7).take(others) {
        let mut draft = Draft { text: vec![], ..small(1, &mut rng) };
        let date = civil::date_of_day(day).expect("a Calendar day");
        draft.put(Field::Date, [(date.year - 1900) as u8, date.month as u8, date.day as u8]);
        records.push(draft);
    }
    File::new([0xE0, 1, 30, 0, 1, 5, 0], &records)
}
