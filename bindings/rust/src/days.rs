//! Days: Calendar days count from 1 January 1980 = 0 to 31 December 2099 = 43,829, Psion days from 1 January 1970 = 0.
//! The only refusal here is 11, with place 0.

use crate::raw::days::{self as raw, FactsAnswer};
use crate::Refusal;

/// A date; nothing says that there is such a day.
#[derive(Clone, Copy, Debug, Default, PartialEq, Eq, PartialOrd, Ord, Hash)]
pub struct Date {
    /// The full year, as 1993.
    pub year: u16,
    /// 1 to 12.
    pub month: u16,
    /// Of the month, 1 to 31.
    pub day: u16,
}

/// A day and all that is known of it.
#[derive(Clone, Copy, Debug, Default, PartialEq, Eq)]
pub struct Facts {
    /// Its number.
    pub calendar_day: u16,
    /// Its date.
    pub date: Date,
    /// 1 = Sunday to 7 = Saturday.
    pub weekday: u16,
    /// Days in its month.
    pub month_length: u16,
}

/// The days in a month. Refused when the year is not 1980 to 2099 or the month not 1 to 12.
pub fn month_length(year: u16, month: u16) -> Result<u16, Refusal> {
    let answer = raw::month_length(year, month);
    Refusal::check(answer.number, answer.place)?;
    Ok(answer.length)
}

/// Whether this is a real Gregorian date from 1980 to 2099.
pub fn is_real_date(Date { year, month, day }: Date) -> bool {
    raw::is_real_date(year, month, day)
}

/// The Calendar day of a date. Refused when [`is_real_date`] says false.
pub fn day_of_date(Date { year, month, day }: Date) -> Result<u16, Refusal> {
    let answer = raw::day_of_date(year, month, day);
    Refusal::check(answer.number, answer.place)?;
    Ok(answer.day)
}

/// The date of a Calendar day. Refused over 43,829.
pub fn date_of_day(day: u16) -> Result<Date, Refusal> {
    let answer = raw::date_of_day(day);
    Refusal::check(answer.number, answer.place)?;
    Ok(Date { year: answer.year, month: answer.month, day: answer.day })
}

/// The weekday of a Calendar day, 1 = Sunday to 7 = Saturday. Refused over 43,829.
pub fn weekday(day: u16) -> Result<u16, Refusal> {
    let answer = raw::weekday(day);
    Refusal::check(answer.number, answer.place)?;
    Ok(answer.weekday)
}

/// All that is known of a Calendar day. Refused over 43,829.
pub fn day_facts(day: u16) -> Result<Facts, Refusal> {
    facts(raw::day_facts(day))
}

/// The facts of the day after: the quick way to go through many days. Refused when `calendar_day` is 43,829 or more or
/// the year over 2099; facts that belong to no day are stepped all the same.
pub fn next_day(facts_before: Facts) -> Result<Facts, Refusal> {
    let Facts { calendar_day, date: Date { year, month, day }, weekday, month_length } = facts_before;
    let (number, place) = (0, 0);
    facts(raw::next_day(FactsAnswer { number, place, calendar_day, year, month, day, weekday, month_length }))
}

/// The Calendar day of a Psion day. Refused when that is not 3,652 to 29,219 (1980 to 2049).
pub fn calendar_of_psion(day: u16) -> Result<u16, Refusal> {
    let answer = raw::calendar_of_psion(day);
    Refusal::check(answer.number, answer.place)?;
    Ok(answer.day)
}

/// The Psion day of a Calendar day. Refused over 25,567 (31 December 2049).
pub fn psion_of_calendar(day: u16) -> Result<u16, Refusal> {
    let answer = raw::psion_of_calendar(day);
    Refusal::check(answer.number, answer.place)?;
    Ok(answer.day)
}

fn facts(answer: FactsAnswer) -> Result<Facts, Refusal> {
    let FactsAnswer { number, place, calendar_day, year, month, day, weekday, month_length } = answer;
    Refusal::check(number, place)?;
    Ok(Facts { calendar_day, date: Date { year, month, day }, weekday, month_length })
}
