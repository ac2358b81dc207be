//! Document 02, R-8: why a record is on a day, or why it isn't. Whether a reason is true is told of each one apart, and
//! the first true one is given.

use crate::days::{is_real_date, Date, Facts};
use crate::pages::{asked, falls, Falls, ShortMonth};
use crate::records::{Entry, Rule};
use crate::refusal::Refusal;

/// In the paper's order.
#[derive(Clone, Copy, Debug, PartialEq, Eq)]
pub enum Reason {
    OwnDay,
    Moved,
    IsToDo,
    BeforeStart,
    AfterEnd,
    WrongMonth,
    MonthTooShort,
    WrongDay,
    WrongWeekday,
    WrongWeek,
}

pub const REASONS: [Reason; 10] = [
    Reason::OwnDay,
    Reason::Moved,
    Reason::IsToDo,
    Reason::BeforeStart,
    Reason::AfterEnd,
    Reason::WrongMonth,
    Reason::MonthTooShort,
    Reason::WrongDay,
    Reason::WrongWeekday,
    Reason::WrongWeek,
];

pub fn why(file: &[u8], record: usize, day: u16, choice: ShortMonth) -> Result<Reason, Refusal> {
    let (record, facts) = asked(file, record, day)?;
    Ok(reason(&record.entry, &facts, choice))
}

/// The first that holds.
pub fn reason(entry: &Entry, day: &Facts, choice: ShortMonth) -> Reason {
    let holds = |reason: &Reason| reason.holds(entry, day, choice);
    REASONS.into_iter().find(holds).expect("a record that is not on a day has a reason")
}

impl Reason {
    /// Whether it is true, whatever the others are.
    pub fn holds(self, entry: &Entry, day: &Facts, choice: ShortMonth) -> bool {
        match self {
            Reason::OwnDay => falls(entry, day, choice) == Falls::OnItsDay,
            Reason::Moved => falls(entry, day, choice) == Falls::Moved,
            Reason::IsToDo => matches!(entry, Entry::ToDo { .. }),
            Reason::BeforeStart => day.date < start(entry),
            Reason::AfterEnd => end(entry).is_some_and(|end| end < day.date),
            Reason::WrongMonth => wanted_month(entry).is_some_and(|month| month != day.date.month),
            Reason::MonthTooShort => choice == ShortMonth::Skip && month_too_short(entry, day.date),
            Reason::WrongDay => wanted_day(entry).is_some_and(|wanted| wanted != day.date.day),
            Reason::WrongWeekday => wanted_weekday(entry).is_some_and(|weekday| weekday != day.weekday),
            Reason::WrongWeek => wanted_week(entry).is_some_and(|week| week != (day.date.day - 1) / 7 + 1),
        }
    }
}

/// "on a month's last day, when the wanted day is missing from that month"
fn month_too_short(entry: &Entry, date: Date) -> bool {
    let missing = |day| !is_real_date(Date { day, ..date });
    missing(date.day + 1) && wanted_day(entry).is_some_and(missing)
}

/// A dated record starts and ends on its date.
fn start(entry: &Entry) -> Date {
    match *entry {
        Entry::Dated { date, .. } => date,
        Entry::Repeated { first, .. } => first,
        Entry::ToDo { start, .. } => start,
    }
}

fn end(entry: &Entry) -> Option<Date> {
    match *entry {
        Entry::Dated { date, .. } => Some(date),
        Entry::Repeated { last, .. } => Some(last),
        Entry::ToDo { .. } => None,
    }
}

fn rule(entry: &Entry) -> Option<Rule> {
    match *entry {
        Entry::Repeated { rule, .. } => Some(rule),
        Entry::Dated { .. } | Entry::ToDo { .. } => None,
    }
}

fn wanted_month(entry: &Entry) -> Option<u16> {
    match rule(entry)? {
        Rule::Yearly { month, .. } => Some(month),
        Rule::Weekly { .. } | Rule::MonthlyByDate { .. } | Rule::MonthlyByPosition { .. } => None,
    }
}

/// Of the month.
fn wanted_day(entry: &Entry) -> Option<u16> {
    match rule(entry)? {
        Rule::MonthlyByDate { day } | Rule::Yearly { day, .. } => Some(day),
        Rule::Weekly { .. } | Rule::MonthlyByPosition { .. } => None,
    }
}

fn wanted_weekday(entry: &Entry) -> Option<u16> {
    match rule(entry)? {
        Rule::Weekly { weekday } | Rule::MonthlyByPosition { weekday, .. } => Some(weekday),
        Rule::MonthlyByDate { .. } | Rule::Yearly { .. } => None,
    }
}

fn wanted_week(entry: &Entry) -> Option<u16> {
    match rule(entry)? {
        Rule::MonthlyByPosition { week, .. } => Some(week),
        Rule::Weekly { .. } | Rule::MonthlyByDate { .. } | Rule::Yearly { .. } => None,
    }
}
