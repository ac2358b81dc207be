//! The fastest formulas known for days and dates, after Howard Hinnant and after Cassio Neri and
//! Lorenz Schneider: a third way for the tests, and for the bench what is possible.
//!
//! Years begin in March, so that a leap day is the last of its year. From 1980 to 2099 every fourth
//! year is a leap year (2000 is one), so four years are always 1,461 days.

use crate::days::{Date, Facts, FIRST_YEAR, LAST_DAY, LAST_YEAR};
use crate::refusal::{Refusal, OUT_OF_RANGE};

/// 1 March 1976 begins four such years, 1,401 days before day 0.
const START_YEAR: u32 = 1976;
const START: u32 = 1_401;

pub fn date_of_day(day: u16) -> Result<Date, Refusal> {
    if day > LAST_DAY {
        return Err(OUT_OF_RANGE);
    }
    let quarters = 4 * (u32::from(day) + START) + 3;
    let day_of_year = quarters % 1_461 / 4;
    // High half: the month, 3 = March to 14 = February. Low half: the day in it, times 2,141.
    let scaled = 2_141 * day_of_year + 197_913;
    let (month, day) = (scaled >> 16, (scaled & 0xFFFF) / 2_141 + 1);
    let new_year = u32::from(day_of_year >= 306);
    let year = START_YEAR + quarters / 1_461 + new_year;
    Ok(Date { year: year as u16, month: (month - 12 * new_year) as u16, day: day as u16 })
}

pub fn day_of_date(date: Date) -> Result<u16, Refusal> {
    let Date { year, month, day } = date;
    let in_range = (FIRST_YEAR..=LAST_YEAR).contains(&year) && (1..=12).contains(&month);
    if !in_range || day == 0 || day > month_length(year, month) {
        return Err(OUT_OF_RANGE);
    }
    let early = u32::from(month <= 2);
    let years = u32::from(year) - START_YEAR - early;
    let month = u32::from(month) + 12 * early;
    Ok((1_461 * years / 4 + (979 * month - 2_919) / 32 + u32::from(day) - 1 - START) as u16)
}

pub fn day_facts(day: u16) -> Result<Facts, Refusal> {
    let date = date_of_day(day)?;
    let weekday = ((day + 2) % 7) as u16 + 1;
    let month_length = month_length(date.year, date.month);
    Ok(Facts { calendar_day: day, date, weekday, month_length })
}

fn month_length(year: u16, month: u16) -> u16 {
    if month == 2 {
        28 + u16::from(year % 4 == 0)
    } else {
        30 | (month ^ month >> 3)
    }
}
