//! The reference's results as the answers of the proved library (`apptbook::raw`), so that a comparison sees every
//! field: on a refusal all but number and place is 0, but a writing state comes back as it was.
//!
//! And the way back, since what was read can be handed on to the writing calls as it is.

mod records;
mod writer;

use crate::book::{Book, Settings};
use crate::calendar::{Appointment, Descriptor};
use crate::days::{Date, Facts};
use crate::pages::{Falls, Line, Search};
use crate::reasons::Reason;
use crate::refusal::Refusal;
use apptbook::raw::book::{BookAnswer, LineAnswer, LinesAnswer};
use apptbook::raw::calendar::{AppointmentAnswer, DescriptorAnswer};
use apptbook::raw::days::{DateAnswer, DayAnswer, FactsAnswer, LengthAnswer, WeekdayAnswer};
use apptbook::raw::pages::{CountAnswer, FallsAnswer, OccurrenceAnswer, PageLineAnswer};
use apptbook::raw::reasons::ReasonAnswer;
pub use records::entry_of;
use std::ops::Range;
pub use writer::{state_of, writer_answer};

pub trait IntoAnswer<A> {
    fn answer(self) -> A;
}

/// The value's fields, or number and place and 0 in all else.
macro_rules! answer_of_result {
    ($answer:ident, $value:ty, $pattern:pat => { $($field:ident: $part:expr),* $(,)? }) => {
        impl IntoAnswer<$answer> for Result<$value, Refusal> {
            fn answer(self) -> $answer {
                match self {
                    Ok($pattern) => $answer { number: 0, place: 0, $($field: $part),* },
                    Err(Refusal { number, place }) => $answer { number, place, ..Default::default() },
                }
            }
        }
    };
}

answer_of_result!(LengthAnswer, u16, length => { length: length });
answer_of_result!(DayAnswer, u16, day => { day: day });
answer_of_result!(DateAnswer, Date, date => { year: date.year, month: date.month, day: date.day });
answer_of_result!(WeekdayAnswer, u16, weekday => { weekday: weekday });
answer_of_result!(FactsAnswer, Facts, facts => {
    calendar_day: facts.calendar_day,
    year: facts.date.year,
    month: facts.date.month,
    day: facts.date.day,
    weekday: facts.weekday,
    month_length: facts.month_length
});

answer_of_result!(BookAnswer, Book, book => {
    records: book.records,
    start: book.settings.start,
    granularity: book.settings.granularity,
    lead: book.settings.lead,
    alarm: book.settings.alarm,
    carry_forward: book.settings.carry_forward,
});
answer_of_result!(LinesAnswer, usize, lines => { lines: lines });
answer_of_result!(LineAnswer, Range<usize>, line => { at: line.start, length: line.len() });

answer_of_result!(FallsAnswer, Falls, falls => {
    falls: match falls {
        Falls::Not => 0,
        Falls::OnItsDay => 1,
        Falls::Moved => 2,
    },
});
answer_of_result!(ReasonAnswer, Reason, reason => {
    reason: match reason {
        Reason::OwnDay => 1,
        Reason::Moved => 2,
        Reason::IsToDo => 3,
        Reason::BeforeStart => 4,
        Reason::AfterEnd => 5,
        Reason::WrongMonth => 6,
        Reason::MonthTooShort => 7,
        Reason::WrongDay => 8,
        Reason::WrongWeekday => 9,
        Reason::WrongWeek => 10,
    },
});
answer_of_result!(CountAnswer, usize, count => { count: count });
answer_of_result!(PageLineAnswer, Line, line => {
    record: line.record,
    text_at: line.text.start,
    text_length: line.text.len(),
    start: line.start,
    end: line.end,
    alarm: line.alarm,
    moved: line.moved,
});
answer_of_result!(OccurrenceAnswer, Search, search => {
    looked: search.looked,
    day: search.day.unwrap_or(0),
    found: search.day.is_some(),
});

answer_of_result!(DescriptorAnswer, Descriptor, descriptor => {
    day: descriptor.day,
    offset: descriptor.offset,
});
answer_of_result!(AppointmentAnswer, Appointment, appointment => {
    text_at: appointment.text.start,
    text_length: appointment.text.len(),
    minute: appointment.minute,
    flags: appointment.flags,
});

pub fn settings_of(answer: BookAnswer) -> Settings {
    let BookAnswer { start, granularity, alarm, lead, carry_forward, .. } = answer;
    Settings { start, granularity, alarm, lead, carry_forward }
}
