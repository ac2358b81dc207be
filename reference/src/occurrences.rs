//! When a record falls, found in a third way: not by asking day after day, but by going from one
//! occurrence to the next, and by the formulas of `civil`.

use crate::civil;
use crate::days::{Date, FIRST_YEAR, LAST_DAY, LAST_YEAR};
use crate::pages::ShortMonth;
use crate::records::{Entry, Rule};

/// A day on which a record falls.
#[derive(Clone, Copy, Debug, PartialEq, Eq)]
pub struct Showing {
    pub day: u16,
    /// Its own day is another one.
    pub moved: bool,
}

/// All days on which it falls, rising.
pub fn occurrences(entry: &Entry, choice: ShortMonth) -> Vec<Showing> {
    match *entry {
        Entry::Dated { date, .. } => vec![own(day(date))],
        Entry::Repeated { rule, first, last, .. } => {
            let (first, last) = (day(first), day(last));
            let mut showings = showings_of_rule(rule, first, choice);
            showings.retain(|showing| (first..=last).contains(&showing.day));
            showings
        }
        Entry::ToDo { .. } => vec![],
    }
}

/// The first such day at or after `from`: the fastest way known, for the bench.
pub fn soonest(entry: &Entry, from: u16, choice: ShortMonth) -> Option<u16> {
    match *entry {
        Entry::Dated { date, .. } => Some(day(date)).filter(|&day| day >= from),
        Entry::Repeated { rule, first, last, .. } => {
            let from = from.max(day(first));
            let date = civil::date_of_day(from).ok()?;
            let months =
                (12 * date.year + date.month - 1..12 * (LAST_YEAR + 1)).map(|n| (n / 12, n % 12 + 1));
            let later = |&day: &u16| day >= from;
            let found = match rule {
                Rule::Weekly { weekday } => Some(from + (weekday + 7 - weekday_of(from)) % 7),
                Rule::MonthlyByDate { day } => {
                    months.filter_map(|(year, month)| Some(made(year, month, day, choice)?.day)).find(later)
                }
                Rule::MonthlyByPosition { week, weekday } => {
                    months.filter_map(|(year, month)| nth_weekday(year, month, week, weekday)).find(later)
                }
                Rule::Yearly { month, day } => (date.year..=LAST_YEAR)
                    .filter_map(|year| Some(made(year, month, day, choice)?.day))
                    .find(later),
            };
            found.filter(|&found| found <= day(last))
        }
        Entry::ToDo { .. } => None,
    }
}

/// From `first` on or from before it.
fn showings_of_rule(rule: Rule, first: u16, choice: ShortMonth) -> Vec<Showing> {
    let months = || (FIRST_YEAR..=LAST_YEAR).flat_map(|year| (1..=12).map(move |month| (year, month)));
    match rule {
        Rule::Weekly { weekday } => {
            let wait = (weekday + 7 - weekday_of(first)) % 7;
            (first + wait..=LAST_DAY).step_by(7).map(own).collect()
        }
        Rule::MonthlyByDate { day } => {
            months().filter_map(|(year, month)| made(year, month, day, choice)).collect()
        }
        Rule::MonthlyByPosition { week, weekday } => {
            months().filter_map(|(year, month)| nth_weekday(year, month, week, weekday)).map(own).collect()
        }
        Rule::Yearly { month, day } => {
            (FIRST_YEAR..=LAST_YEAR).filter_map(|year| made(year, month, day, choice)).collect()
        }
    }
}

/// Every rule there is.
pub fn rules() -> Vec<Rule> {
    let weekly = (1..=7).map(|weekday| Rule::Weekly { weekday });
    let monthly = (1..=31).map(|day| Rule::MonthlyByDate { day });
    let position =
        (1..=5).flat_map(|week| (1..=7).map(move |weekday| Rule::MonthlyByPosition { week, weekday }));
    // The days of 1980, a leap year.
    let dates = (0..366).map(|day| civil::date_of_day(day).expect("a Calendar day"));
    let yearly = dates.map(|Date { month, day, .. }| Rule::Yearly { month, day });
    weekly.chain(monthly).chain(position).chain(yearly).collect()
}

fn day(date: Date) -> u16 {
    civil::day_of_date(date).expect("a real date")
}

/// 1 January 1980 was a Tuesday, 3.
fn weekday_of(day: u16) -> u16 {
    (day % 7 + 3 - 1) % 7 + 1
}

fn own(day: u16) -> Showing {
    Showing { day, moved: false }
}

/// The day of that date; where there is none, the last before it or nothing.
fn made(year: u16, month: u16, wanted: u16, choice: ShortMonth) -> Option<Showing> {
    let real = |day| civil::day_of_date(Date { year, month, day }).ok();
    real(wanted).map(own).or_else(|| match choice {
        ShortMonth::Skip => None,
        ShortMonth::Last => (1..wanted).rev().find_map(real).map(|day| Showing { day, moved: true }),
    })
}

/// The n-th such weekday of a month, where it has so many.
fn nth_weekday(year: u16, month: u16, n: u16, weekday: u16) -> Option<u16> {
    let first = day(Date { year, month, day: 1 });
    let nth = first + (weekday + 7 - weekday_of(first)) % 7 + 7 * (n - 1);
    civil::date_of_day(nth).is_ok_and(|date| date.month == month).then_some(nth)
}
