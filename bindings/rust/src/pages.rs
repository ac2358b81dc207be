//! Day pages and the next occurrence. Each call judges the whole file first (1 to 9); then come, each with place 0 and
//! in this order, 11 for a day over 43,829, 10 and 12.

use crate::raw::pages as raw;
use crate::Refusal;

/// What becomes of a monthly or yearly day that its month does not have. Who has no wish takes the default.
#[derive(Clone, Copy, Debug, PartialEq, Eq)]
pub enum ShortMonth {
    /// The record shows on no day of that month.
    Skip,
    /// It shows on the month's last day.
    Last,
}

/// The library's own choice for a caller who names none, which is [`ShortMonth::Last`].
impl Default for ShortMonth {
    fn default() -> Self {
        if raw::default_last() {
            ShortMonth::Last
        } else {
            ShortMonth::Skip
        }
    }
}

impl ShortMonth {
    pub(crate) fn is_last(self) -> bool {
        self == ShortMonth::Last
    }
}

/// Whether a record falls on a day.
#[derive(Clone, Copy, Debug, PartialEq, Eq)]
pub enum Falls {
    /// It does not.
    Not,
    /// On its own day.
    OnItsDay,
    /// On the month's last day, since its own day is missing there: only under [`ShortMonth::Last`].
    Moved,
}

impl Falls {
    /// Whether the day's page has the record. Moved is a showing, too.
    pub fn is_shown(self) -> bool {
        self != Falls::Not
    }

    fn from_raw(falls: u16) -> Self {
        match falls {
            raw::FALLS_NOT => Falls::Not,
            raw::FALLS_ON_ITS_DAY => Falls::OnItsDay,
            raw::FALLS_MOVED => Falls::Moved,
            other => unreachable!("the library does not answer {other}"),
        }
    }
}

/// What a search for the next occurrence found.
#[derive(Clone, Copy, Debug, Default, PartialEq, Eq)]
pub struct Occurrence {
    /// `None` where there is none up to 43,829.
    pub day: Option<u16>,
    /// How many days were looked at.
    pub looked: u32,
}

/// A line of a day page.
#[derive(Clone, Copy, Debug, PartialEq, Eq)]
pub struct PageLine<'a> {
    /// The record's number.
    pub record: usize,
    /// 0 to 27 bytes of the file.
    pub text: &'a [u8],
    /// Start minute.
    pub start: u16,
    /// End minute.
    pub end: u16,
    /// Alarm on.
    pub alarm: bool,
    /// The record is moved to this day, which the printed page marks with an asterisk: see [`Falls::Moved`].
    pub moved: bool,
}

/// Whether a record falls on a day, and whether it is moved there. Refused with 11, then with 10 when there is no such
/// record.
pub fn falls_on(file: &[u8], record: usize, day: u16, choice: ShortMonth) -> Result<Falls, Refusal> {
    let answer = raw::falls_on(file, record, day, choice);
    Refusal::check(answer.number, answer.place)?;
    Ok(Falls::from_raw(answer.falls))
}

/// The first day at or after the asked one on which a record falls. Refused with 11, then with 10 when there is no such
/// record.
pub fn next_occurrence(
    file: &[u8],
    record: usize,
    day: u16,
    choice: ShortMonth,
) -> Result<Occurrence, Refusal> {
    let answer = raw::next_occurrence(file, record, day, choice);
    Refusal::check(answer.number, answer.place)?;
    Ok(Occurrence { day: answer.found.then_some(answer.day), looked: answer.looked })
}

/// How many lines the page of a day has. Refused with 11.
pub fn page_lines(file: &[u8], day: u16, choice: ShortMonth) -> Result<usize, Refusal> {
    raw::page_lines(file, day, choice).counted()
}

/// A line of the page of a day, from 0. Refused with 11, then with 10 when the page has no such line.
pub fn page_line(file: &[u8], day: u16, choice: ShortMonth, line: usize) -> Result<PageLine<'_>, Refusal> {
    let raw::PageLineAnswer { number, place, record, text_at, text_length, start, end, alarm, moved } =
        raw::page_line(file, day, choice, line);
    Refusal::check(number, place)?;
    Ok(PageLine { record, text: &file[text_at..text_at + text_length], start, end, alarm, moved })
}

/// How many bytes the printed page of a day has. Refused with 11.
pub fn page_length(file: &[u8], day: u16, choice: ShortMonth) -> Result<usize, Refusal> {
    raw::page_length(file, day, choice).counted()
}

/// Prints the page of a day to the start of the buffer: how many bytes were written. No page has more than 65,535.
/// Refused with 11, then with 12 when the buffer is shorter than the page; no byte is then changed.
pub fn print_page(file: &[u8], day: u16, choice: ShortMonth, buffer: &mut [u8]) -> Result<usize, Refusal> {
    raw::print_page(file, day, choice, buffer).counted()
}

impl raw::CountAnswer {
    pub(crate) fn counted(self) -> Result<usize, Refusal> {
        Refusal::check(self.number, self.place)?;
        Ok(self.count)
    }
}
