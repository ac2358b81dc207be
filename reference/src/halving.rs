//! Days and dates by the table of document 01, the starts of the 1,440 months, where a day's month is found by
//! halving: a further way for the tests, and for the bench what this search can cost.

use crate::days::{length, weekday, Date, Facts, FIRST_YEAR, LAST_DAY};
use crate::refusal::{Refusal, OUT_OF_RANGE};

const MONTHS: usize = 1_440;
const HALVINGS: usize = 11;

/// The first day of each month, from January 1980 to December 2099.
pub static STARTS: [u16; MONTHS] = starts();

const fn starts() -> [u16; MONTHS] {
    let mut starts = [0; MONTHS];
    let mut at = 1;
    while at < MONTHS {
        let (year, month) = year_and_month(at - 1);
        starts[at] = starts[at - 1] + length(year, month);
        at += 1;
    }
    starts
}

/// Of the table's entry `at`.
const fn year_and_month(at: usize) -> (u16, u16) {
    (FIRST_YEAR + at as u16 / 12, at as u16 % 12 + 1)
}

/// Some months of the table, one after another.
#[derive(Clone, Copy, Debug, PartialEq, Eq)]
pub struct Part {
    pub first: usize,
    pub count: usize,
}

impl Part {
    pub fn whole() -> Self {
        Part { first: 0, count: MONTHS }
    }

    /// The half that holds the day. Of an odd count the halves share a month, so that both are of one size: the
    /// counts do not depend on the day, and the compiler knows them.
    pub fn halve(self, day: u16) -> Self {
        let half = self.count / 2;
        let middle = self.first + half;
        let first = if STARTS[middle] <= day { middle } else { self.first };
        Part { first, count: self.count - half }
    }
}

/// The table's entry for the day's month, and the date. As a call it costs 18 to 27 instructions more.
#[inline(always)]
fn find(day: u16) -> Result<(usize, Date), Refusal> {
    if day > LAST_DAY {
        return Err(OUT_OF_RANGE);
    }
    let at = (0..HALVINGS).fold(Part::whole(), |part, _| part.halve(day)).first;
    let (year, month) = year_and_month(at);
    Ok((at, Date { year, month, day: day - STARTS[at] + 1 }))
}

pub fn date_of_day(day: u16) -> Result<Date, Refusal> {
    Ok(find(day)?.1)
}

pub fn day_facts(day: u16) -> Result<Facts, Refusal> {
    let (at, date) = find(day)?;
    let end = STARTS.get(at + 1).map_or(LAST_DAY + 1, |&next| next);
    Ok(Facts { calendar_day: day, date, weekday: weekday(day)?, month_length: end - STARTS[at] })
}
