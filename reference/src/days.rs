//! Document 01, "Days": Calendar days count from 1 January 1980 = 0 to 31 December 2099 = 43,829.
//! Everything here counts years and months one by one.

use crate::refusal::{Refusal, OUT_OF_RANGE};

pub const FIRST_YEAR: u16 = 1980;
pub const LAST_YEAR: u16 = 2099;
pub const LAST_DAY: u16 = 43_829;

/// 1 January 1980 and 31 December 2049 in Psion's count, which begins in 1970 (source 001).
pub const FIRST_PSION_DAY: u16 = 3_652;
pub const LAST_PSION_DAY: u16 = 29_219;

#[derive(Clone, Copy, Debug, PartialEq, Eq, PartialOrd, Ord)]
pub struct Date {
    pub year: u16,
    pub month: u16,
    pub day: u16,
}

/// A day with all that is known of it. Weekdays: 1 = Sunday to 7 = Saturday.
#[derive(Clone, Copy, Debug, PartialEq, Eq)]
pub struct Facts {
    pub calendar_day: u16,
    pub date: Date,
    pub weekday: u16,
    pub month_length: u16,
}

pub const fn is_leap(year: u16) -> bool {
    year % 4 == 0 && (year % 100 != 0 || year % 400 == 0)
}

pub fn year_length(year: u16) -> u16 {
    if is_leap(year) {
        366
    } else {
        365
    }
}

/// The month's days in any Gregorian year; 0 for a number that is no month.
pub(crate) const fn length(year: u16, month: u16) -> u16 {
    match month {
        1 | 3 | 5 | 7 | 8 | 10 | 12 => 31,
        4 | 6 | 9 | 11 => 30,
        2 if is_leap(year) => 29,
        2 => 28,
        _ => 0,
    }
}

pub fn month_length(year: u16, month: u16) -> Result<u16, Refusal> {
    if (FIRST_YEAR..=LAST_YEAR).contains(&year) && (1..=12).contains(&month) {
        Ok(length(year, month))
    } else {
        Err(OUT_OF_RANGE)
    }
}

pub fn is_real_date(date: Date) -> bool {
    month_length(date.year, date.month).is_ok_and(|length| (1..=length).contains(&date.day))
}

pub fn day_of_date(date: Date) -> Result<u16, Refusal> {
    if !is_real_date(date) {
        return Err(OUT_OF_RANGE);
    }
    let years: u16 = (FIRST_YEAR..date.year).map(year_length).sum();
    let months: u16 = (1..date.month).map(|month| length(date.year, month)).sum();
    Ok(years + months + u16::from(date.day) - 1)
}

pub fn date_of_day(day: u16) -> Result<Date, Refusal> {
    if day > LAST_DAY {
        return Err(OUT_OF_RANGE);
    }
    let mut rest = day;
    let mut year = FIRST_YEAR;
    while rest >= year_length(year) {
        rest -= year_length(year);
        year += 1;
    }
    let mut month = 1;
    while rest >= length(year, month) {
        rest -= length(year, month);
        month += 1;
    }
    Ok(Date { year, month, day: rest + 1 })
}

/// Day 0 is a Tuesday, 3.
pub fn weekday(day: u16) -> Result<u16, Refusal> {
    if day > LAST_DAY {
        return Err(OUT_OF_RANGE);
    }
    Ok(((day + 2) % 7) + 1)
}

pub fn day_facts(day: u16) -> Result<Facts, Refusal> {
    let date = date_of_day(day)?;
    let month_length = length(date.year, date.month);
    Ok(Facts { calendar_day: day, date, weekday: weekday(day)?, month_length })
}

/// Of every day there is.
pub fn all_facts() -> Vec<Facts> {
    (0..=LAST_DAY).map(|day| day_facts(day).expect("a Calendar day")).collect()
}

/// The day after. Facts that belong to no day are stepped in the same way.
pub fn next_day(facts: Facts) -> Result<Facts, Refusal> {
    let Facts { calendar_day, date, weekday, month_length } = facts;
    if calendar_day >= LAST_DAY || date.year > LAST_YEAR {
        return Err(OUT_OF_RANGE);
    }
    let calendar_day = calendar_day + 1;
    let weekday = if weekday < 7 { weekday + 1 } else { 1 };
    if date.day < month_length {
        let date = Date { day: date.day + 1, ..date };
        return Ok(Facts { calendar_day, date, weekday, month_length });
    }
    let date = if date.month < 12 {
        Date { year: date.year, month: date.month + 1, day: 1 }
    } else {
        Date { year: date.year + 1, month: 1, day: 1 }
    };
    Ok(Facts { calendar_day, date, weekday, month_length: length(date.year, date.month) })
}

pub fn calendar_of_psion(day: u16) -> Result<u16, Refusal> {
    if (FIRST_PSION_DAY..=LAST_PSION_DAY).contains(&day) {
        Ok(day - FIRST_PSION_DAY)
    } else {
        Err(OUT_OF_RANGE)
    }
}

pub fn psion_of_calendar(day: u16) -> Result<u16, Refusal> {
    if day <= LAST_PSION_DAY - FIRST_PSION_DAY {
        Ok(day + FIRST_PSION_DAY)
    } else {
        Err(OUT_OF_RANGE)
    }
}
