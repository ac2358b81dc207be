//! Records that fall on a given day, or nearly: rules that fit it, spans that begin or end at it, dates
//! beside it, and so few minutes that many are equal.

use super::drafts::{Draft, Field};
use super::file::File;
use crate::civil;
use crate::days::{day_facts, Date, Facts, LAST_DAY};
use crate::records::{self, Entry, HEAD};
use crate::rng::Rng;

const MINUTES: [u16; 6] = [0, 1, 255, 480, 600, 1_439];

/// A day at which something may go wrong, or any day.
pub fn edge_day(rng: &mut Rng) -> u16 {
    if rng.one_in(4) {
        return rng.within(0..=LAST_DAY.into()) as u16;
    }
    if rng.one_in(8) {
        return rng.pick(&[0, 1, 30, 31, 58, 59, 60, LAST_DAY - 31, LAST_DAY - 1, LAST_DAY]);
    }
    // The last two days of a month or the first of the next; half of them about the end of February.
    let year = rng.within(1980..=2099) as u16;
    let month = if rng.one_in(2) { 3 } else { rng.within(1..=12) as u16 };
    let first = civil::day_of_date(Date { year, month, day: 1 }).expect("a real date");
    (first + rng.within(0..=3) as u16).saturating_sub(2)
}

/// Kinds 1 to 5 fall on the day in most cases, to-dos never.
pub fn near(day: u16, kind: u8, rng: &mut Rng) -> Draft {
    let mut draft = Draft::random(kind, rng);
    if rng.one_in(2) {
        (draft.note, draft.padding) = (vec![], vec![]);
    }
    let facts = day_facts(day).expect("a Calendar day");
    let often = |rng: &mut Rng, fitting: u16, others: &[u16]| {
        (if rng.one_in(8) { rng.pick(others) } else { fitting }) as u8
    };
    let date = facts.date;
    let day_of_month = often(rng, date.day, &[1, 28, 29, 30, 31, date.day % 28 + 1]);
    let month = often(rng, date.month, &[date.month % 12 + 1, 12]);
    let yearly = if rng.one_in(6) { [2, 29] } else { [month, day_of_month.min(longest(month))] };
    draft.put(Field::Weekday, [often(rng, facts.weekday, &[1, 7, facts.weekday % 7 + 1])]);
    draft.put(Field::Week, [often(rng, (date.day - 1) / 7 + 1, &[1, 4, 5])]);
    draft.put(Field::Day, [day_of_month]);
    draft.put(Field::MonthAndDay, yearly);
    draft.put(Field::Date, date_bytes(beside(day, rng)));
    draft.put(Field::Dates, span(day, rng));
    draft.put(Field::Times, times(rng));
    draft
}

/// Of that kind: any record, or one near some day.
pub fn any_entry(kind: u8, rng: &mut Rng) -> Entry {
    let draft = if rng.one_in(2) {
        Draft::random(kind, rng)
    } else {
        let day = edge_day(rng);
        near(day, kind, rng)
    };
    records::read(kind, 0, &draft.bytes()[HEAD..]).expect("a right record").entry
}

/// A book of records near the day. If it is its month's last, some want a later one, and last moves them to it.
pub fn book_near(day: u16, records: usize, rng: &mut Rng) -> File {
    let Facts { date, month_length, .. } = day_facts(day).expect("a Calendar day");
    let mut record = |_| {
        let mut draft = near(day, rng.within(1..=6) as u8, rng);
        if date.day == month_length && rng.one_in(2) {
            let (month, wanted) = (date.month as u8, rng.within(date.day.into()..=31) as u8);
            draft.put(Field::Day, [wanted]);
            draft.put(Field::MonthAndDay, [month, wanted.min(longest(month))]);
        }
        draft
    };
    let records: Vec<_> = (0..records).map(&mut record).collect();
    File::random(&records, rng)
}

/// The days of that month in a leap year.
fn longest(month: u8) -> u8 {
    match month {
        2 => 29,
        4 | 6 | 9 | 11 => 30,
        _ => 31,
    }
}

/// Most often the day itself.
fn beside(day: u16, rng: &mut Rng) -> u16 {
    match rng.below(8) {
        0 => day.saturating_sub(1),
        1 => (day + 1).min(LAST_DAY),
        _ => day,
    }
}

fn span(day: u16, rng: &mut Rng) -> Vec<u8> {
    let before = rng.within(0..=day.into()) as u16;
    let after = rng.within(day.into()..=LAST_DAY.into()) as u16;
    let (first, last) = match rng.below(12) {
        0 => (day, day),
        1 => (before, day),
        2 => (day, after),
        3 => (before, day.saturating_sub(1)),
        4 => ((day + 1).min(LAST_DAY), after),
        5 => (0, LAST_DAY),
        6 => (day.saturating_sub(31), (day + 31).min(LAST_DAY)),
        _ => (before, after),
    };
    [date_bytes(first.min(last)), date_bytes(first.max(last))].concat()
}

fn times(rng: &mut Rng) -> Vec<u8> {
    let mut minutes = [rng.pick(&MINUTES), rng.pick(&MINUTES)];
    minutes.sort();
    [minutes[0].to_be_bytes(), minutes[1].to_le_bytes()].concat()
}

fn date_bytes(day: u16) -> [u8; 3] {
    let date = civil::date_of_day(day).expect("a Calendar day");
    [(date.year - 1900) as u8, date.month as u8, date.day as u8]
}
