//! Document 01, "When a record falls on a day": day pages and the search for the next occurrence. Document 02, R-7: a
//! showing on its own day, or moved.
//!
//! Every call judges the whole book first, then the day (11), then the number (10).

use crate::book;
use crate::days::{day_facts, next_day, Facts, LAST_DAY};
use crate::records::{Entry, Record, Rule, Times};
use crate::refusal::{Refusal, NO_SUCH_NUMBER};
pub use apptbook::ShortMonth;
use std::ops::Range;

pub const CHOICES: [ShortMonth; 2] = [ShortMonth::Skip, ShortMonth::Last];

/// That of a caller who names none (document 02, R-3).
pub const DEFAULT: ShortMonth = ShortMonth::Last;

/// Whether a record falls on a day.
#[derive(Clone, Copy, Debug, PartialEq, Eq)]
pub enum Falls {
    Not,
    OnItsDay,
    Moved,
}

impl Falls {
    /// "the export, the search and the differences treat moved as a showing"
    pub fn is_shown(self) -> bool {
        match self {
            Falls::Not => false,
            Falls::OnItsDay | Falls::Moved => true,
        }
    }
}

#[derive(Clone, Debug, PartialEq, Eq)]
pub struct Line {
    /// The record's number, which is its place in the book.
    pub record: usize,
    pub start: u16,
    pub end: u16,
    pub alarm: bool,
    pub moved: bool,
    /// A stretch of the file.
    pub text: Range<usize>,
}

/// What a search found.
#[derive(Clone, Copy, Debug, PartialEq, Eq)]
pub struct Search {
    pub day: Option<u16>,
    /// How many days were looked at, from the asked one through the found or the last one.
    pub looked: u32,
}

pub fn falls(entry: &Entry, day: &Facts, choice: ShortMonth) -> Falls {
    match *entry {
        Entry::Dated { date, .. } => own_day(date == day.date),
        Entry::Repeated { rule, first, last, .. } if first <= day.date && day.date <= last => {
            follows(rule, day, choice)
        }
        Entry::Repeated { .. } | Entry::ToDo { .. } => Falls::Not,
    }
}

fn own_day(fits: bool) -> Falls {
    if fits {
        Falls::OnItsDay
    } else {
        Falls::Not
    }
}

fn follows(rule: Rule, day: &Facts, choice: ShortMonth) -> Falls {
    match rule {
        Rule::Weekly { weekday } => own_day(weekday == day.weekday),
        Rule::MonthlyByDate { day: wanted } => shows(wanted, day, choice),
        Rule::MonthlyByPosition { week, weekday } => {
            own_day(weekday == day.weekday && (day.date.day - 1) / 7 + 1 == week)
        }
        Rule::Yearly { month, day: wanted } if month == day.date.month => shows(wanted, day, choice),
        Rule::Yearly { .. } => Falls::Not,
    }
}

/// Whether a record for this day of the month shows on this day.
fn shows(wanted: u16, day: &Facts, choice: ShortMonth) -> Falls {
    if wanted <= day.month_length {
        own_day(wanted == day.date.day)
    } else if choice == ShortMonth::Last && day.date.day == day.month_length {
        Falls::Moved
    } else {
        Falls::Not
    }
}

pub fn falls_on(file: &[u8], record: usize, day: u16, choice: ShortMonth) -> Result<Falls, Refusal> {
    let (record, facts) = asked(file, record, day)?;
    Ok(falls(&record.entry, &facts, choice))
}

pub fn next_occurrence(file: &[u8], record: usize, day: u16, choice: ShortMonth) -> Result<Search, Refusal> {
    let (record, mut facts) = asked(file, record, day)?;
    while !falls(&record.entry, &facts, choice).is_shown() {
        match next_day(facts) {
            Ok(next) => facts = next,
            Err(_) => return Ok(Search { day: None, looked: u32::from(LAST_DAY + 1 - day) }),
        }
    }
    let found = facts.calendar_day;
    Ok(Search { day: Some(found), looked: u32::from(found - day + 1) })
}

pub(crate) fn asked(file: &[u8], record: usize, day: u16) -> Result<(Record, Facts), Refusal> {
    match book::record(file, record) {
        Err(refusal) if refusal != NO_SUCH_NUMBER => Err(refusal),
        record => {
            let facts = day_facts(day)?;
            Ok((record?, facts))
        }
    }
}

/// The lines of a day's page: by start minute, and then by place in the book.
pub fn page(file: &[u8], day: u16, choice: ShortMonth) -> Result<Vec<Line>, Refusal> {
    Ok(facts_and_page(file, day, choice)?.1)
}

pub(crate) fn facts_and_page(
    file: &[u8],
    day: u16,
    choice: ShortMonth,
) -> Result<(Facts, Vec<Line>), Refusal> {
    let mut lines = Vec::new();
    let facts = each_line(file, day, choice, |line| lines.push(line))?;
    // The sort is stable, so equal minutes stay in the order of the book.
    lines.sort_by_key(|line| line.start);
    Ok((facts, lines))
}

pub fn page_lines(file: &[u8], day: u16, choice: ShortMonth) -> Result<usize, Refusal> {
    let mut lines = 0;
    each_line(file, day, choice, |_| lines += 1)?;
    Ok(lines)
}

pub fn page_line(file: &[u8], day: u16, choice: ShortMonth, line: usize) -> Result<Line, Refusal> {
    page(file, day, choice)?.into_iter().nth(line).ok_or(NO_SUCH_NUMBER)
}

/// Judges the book, then the day, and shows each line in the order of the book.
pub(crate) fn each_line(
    file: &[u8],
    day: u16,
    choice: ShortMonth,
    mut show: impl FnMut(Line),
) -> Result<Facts, Refusal> {
    let facts = day_facts(day);
    let mut number = 0;
    book::read(file, |record| {
        let falls = facts.map_or(Falls::Not, |facts| falls(&record.entry, &facts, choice));
        if falls.is_shown() {
            show(line(number, record, falls == Falls::Moved));
        }
        number += 1;
    })?;
    facts
}

fn line(record: usize, Record { flag, entry, text, .. }: Record, moved: bool) -> Line {
    let (Entry::Dated { times, .. } | Entry::Repeated { times, .. }) = entry else {
        unreachable!("a to-do falls on no day")
    };
    let Times { start, end, .. } = times;
    Line { record, start, end, alarm: flag, moved, text }
}
