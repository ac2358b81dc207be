//! Records as answers, and back.

use super::IntoAnswer;
use crate::days::Date;
use crate::records::{Entry, Record, Rule, Times};
use crate::refusal::Refusal;
use apptbook::raw::book::RecordAnswer;

impl IntoAnswer<RecordAnswer> for Result<Record, Refusal> {
    fn answer(self) -> RecordAnswer {
        match self {
            Ok(record) => RecordAnswer {
                at: record.at,
                text_at: record.text.start,
                text_length: record.text.len(),
                note_at: record.note.start,
                note_length: record.note.len(),
                flag: record.flag,
                ..of_entry(record.entry)
            },
            Err(Refusal { number, place }) => RecordAnswer { number, place, ..Default::default() },
        }
    }
}

fn of_entry(entry: Entry) -> RecordAnswer {
    let none = RecordAnswer::default();
    match entry {
        Entry::Dated { date, times } => with_times(with_first(RecordAnswer { kind: 1, ..none }, date), times),
        Entry::Repeated { rule, first, last, times } => {
            let answer = match rule {
                Rule::Weekly { weekday } => RecordAnswer { kind: 2, weekday, ..none },
                Rule::MonthlyByDate { day } => RecordAnswer { kind: 3, day, ..none },
                Rule::MonthlyByPosition { week, weekday } => RecordAnswer { kind: 4, week, weekday, ..none },
                Rule::Yearly { month, day } => RecordAnswer { kind: 5, month, day, ..none },
            };
            with_times(with_last(with_first(answer, first), last), times)
        }
        Entry::ToDo { priority, start, check_off } => {
            let answer = with_first(RecordAnswer { kind: 6, priority, ..none }, start);
            check_off.map_or(answer, |date| with_check_off(answer, date))
        }
    }
}

fn with_first(answer: RecordAnswer, Date { year, month, day }: Date) -> RecordAnswer {
    RecordAnswer { first_year: year, first_month: month, first_day: day, ..answer }
}

fn with_last(answer: RecordAnswer, Date { year, month, day }: Date) -> RecordAnswer {
    RecordAnswer { last_year: year, last_month: month, last_day: day, ..answer }
}

fn with_check_off(answer: RecordAnswer, Date { year, month, day }: Date) -> RecordAnswer {
    let checked_off = true;
    RecordAnswer { checked_off, check_off_year: year, check_off_month: month, check_off_day: day, ..answer }
}

fn with_times(answer: RecordAnswer, Times { start, end, lead }: Times) -> RecordAnswer {
    RecordAnswer { start, end, lead, ..answer }
}

/// The entry of its kind, whether in range or not, and nothing of the fields that the kind does not have; None where
/// there is none: a kind unknown, or a date of check-off in a to-do not checked off.
pub fn entry_of(answer: RecordAnswer) -> Option<Entry> {
    let RecordAnswer { weekday, week, month, day, priority, start, end, lead, .. } = answer;
    let date = |year, month, day| Date { year, month, day };
    let first = date(answer.first_year, answer.first_month, answer.first_day);
    let last = date(answer.last_year, answer.last_month, answer.last_day);
    let done = date(answer.check_off_year, answer.check_off_month, answer.check_off_day);
    let times = Times { start, end, lead };
    let repeated = |rule| Some(Entry::Repeated { rule, first, last, times });
    let to_do = |check_off| Some(Entry::ToDo { priority, start: first, check_off });
    match answer.kind {
        1 => Some(Entry::Dated { date: first, times }),
        2 => repeated(Rule::Weekly { weekday }),
        3 => repeated(Rule::MonthlyByDate { day }),
        4 => repeated(Rule::MonthlyByPosition { week, weekday }),
        5 => repeated(Rule::Yearly { month, day }),
        6 if answer.checked_off => to_do(Some(done)),
        6 => to_do(None),
        _ => None,
    }
}
