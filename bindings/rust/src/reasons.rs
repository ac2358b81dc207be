//! Why a record is on a day, or why it is not.

use crate::raw::reasons as raw;
use crate::{Refusal, ShortMonth};
use std::fmt::{self, Display, Formatter};

/// Why a record is on a day (the first two), or why it is not. Where several of the others hold, the first is given.
#[derive(Clone, Copy, Debug, PartialEq, Eq)]
pub enum Reason {
    /// It is there: this is its own day.
    OwnDay,
    /// It is there: this month does not have its own day. Only under [`ShortMonth::Last`].
    Moved,
    /// To-dos are on no page.
    IsToDo,
    /// It begins later; a dated record: its date is later.
    BeforeStart,
    /// It has ended; a dated record: its date was earlier.
    AfterEnd,
    /// It comes in another month of the year.
    WrongMonth,
    /// This month does not have its own day. Only under [`ShortMonth::Skip`], and on the month's last day.
    MonthTooShort,
    /// It comes on another day of the month.
    WrongDay,
    /// It comes on another weekday.
    WrongWeekday,
    /// It comes on this weekday, but in another week of the month.
    WrongWeek,
}

impl Reason {
    /// Whether the day's page has the record.
    pub fn is_shown(self) -> bool {
        matches!(self, Reason::OwnDay | Reason::Moved)
    }

    fn from_raw(reason: u16) -> Self {
        match reason {
            raw::OWN_DAY => Reason::OwnDay,
            raw::MOVED => Reason::Moved,
            raw::IS_TO_DO => Reason::IsToDo,
            raw::BEFORE_START => Reason::BeforeStart,
            raw::AFTER_LAST_DAY => Reason::AfterEnd,
            raw::WRONG_MONTH => Reason::WrongMonth,
            raw::MONTH_TOO_SHORT => Reason::MonthTooShort,
            raw::WRONG_DAY => Reason::WrongDay,
            raw::WRONG_WEEKDAY => Reason::WrongWeekday,
            raw::WRONG_WEEK => Reason::WrongWeek,
            other => unreachable!("the library does not answer {other}"),
        }
    }
}

impl Display for Reason {
    fn fmt(&self, f: &mut Formatter) -> fmt::Result {
        f.pad(match self {
            Reason::OwnDay => "on its own day",
            Reason::Moved => "moved",
            Reason::IsToDo => "is a to-do",
            Reason::BeforeStart => "before start",
            Reason::AfterEnd => "after end",
            Reason::WrongMonth => "wrong month",
            Reason::MonthTooShort => "month too short",
            Reason::WrongDay => "wrong day of month",
            Reason::WrongWeekday => "wrong weekday",
            Reason::WrongWeek => "wrong week",
        })
    }
}

/// Why a record is on a day, or why it is not. The whole file is judged first (1 to 9). Refused with 11 for a day over
/// 43,829, then with 10 when there is no such record.
pub fn why(file: &[u8], record: usize, day: u16, choice: ShortMonth) -> Result<Reason, Refusal> {
    let answer = raw::why(file, record, day, choice);
    Refusal::check(answer.number, answer.place)?;
    Ok(Reason::from_raw(answer.reason))
}
