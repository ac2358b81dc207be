//! A record, read from a book or to be added to one. Minutes count from midnight, 0 to 1,439. What is read is in range;
//! what is to be added may be anything, and is refused where it is not.

use crate::raw::book::{RecordAnswer, DATED, MONTHLY_BY_DATE, MONTHLY_BY_POSITION, TO_DO, WEEKLY, YEARLY};
use crate::Date;

/// One record, its text and note as they are in the file.
#[derive(Clone, Copy, Debug, PartialEq, Eq)]
pub struct Record<'a> {
    /// The place of its type byte in the file it was read from; adding ignores it.
    pub at: usize,
    /// Alarm on; to-do: carry forward.
    pub flag: bool,
    /// What it says by its kind.
    pub entry: Entry,
    /// 0 to 27 bytes, none of them zero.
    pub text: &'a [u8],
    /// 0 to 440 bytes, with the zero bytes that end its lines.
    pub note: &'a [u8],
}

/// What a record says by its kind.
#[derive(Clone, Copy, Debug, PartialEq, Eq)]
pub enum Entry {
    /// On one day.
    Dated {
        /// That day.
        date: Date,
        /// When on that day.
        times: Times,
    },
    /// On the days of a rule.
    Repeated {
        /// The rule.
        rule: Rule,
        /// The first date of its span.
        first: Date,
        /// The last date of its span, not before the first.
        last: Date,
        /// When on each day.
        times: Times,
    },
    /// On no day.
    ToDo {
        /// 1 to 9.
        priority: u16,
        /// Its start date.
        start: Date,
        /// When it was checked off, where it was.
        check_off: Option<Date>,
    },
}

/// The days of a repeated record. A weekday is 1 = Sunday to 7 = Saturday.
#[derive(Clone, Copy, Debug, PartialEq, Eq)]
#[allow(missing_docs)] // the fields are what their names say
pub enum Rule {
    /// Each week on a weekday.
    Weekly { weekday: u16 },
    /// Each month on a day, 1 to 31.
    MonthlyByDate { day: u16 },
    /// Each month on the first to fifth of a weekday.
    MonthlyByPosition { week: u16, weekday: u16 },
    /// Each year on a month and a day.
    Yearly { month: u16, day: u16 },
}

/// Minutes of a day.
#[derive(Clone, Copy, Debug, Default, PartialEq, Eq)]
pub struct Times {
    /// Start minute.
    pub start: u16,
    /// End minute, not before the start.
    pub end: u16,
    /// Lead time in minutes, 0 to 30.
    pub lead: u16,
}

impl<'a> Record<'a> {
    /// Of an answer that is no refusal, and the file that it is about.
    pub(crate) fn read(answer: &RecordAnswer, file: &'a [u8]) -> Self {
        Record {
            at: answer.at,
            flag: answer.flag,
            entry: Entry::read(answer),
            text: &file[answer.text_at..answer.text_at + answer.text_length],
            note: &file[answer.note_at..answer.note_at + answer.note_length],
        }
    }
}

impl Entry {
    fn read(answer: &RecordAnswer) -> Self {
        let RecordAnswer { weekday, week, month, day, priority, start, end, lead, .. } = *answer;
        let date = |year, month, day| Date { year, month, day };
        let first = date(answer.first_year, answer.first_month, answer.first_day);
        let last = date(answer.last_year, answer.last_month, answer.last_day);
        let checked = date(answer.check_off_year, answer.check_off_month, answer.check_off_day);
        let times = Times { start, end, lead };
        let repeated = |rule| Entry::Repeated { rule, first, last, times };
        match answer.kind {
            DATED => Entry::Dated { date: first, times },
            WEEKLY => repeated(Rule::Weekly { weekday }),
            MONTHLY_BY_DATE => repeated(Rule::MonthlyByDate { day }),
            MONTHLY_BY_POSITION => repeated(Rule::MonthlyByPosition { week, weekday }),
            YEARLY => repeated(Rule::Yearly { month, day }),
            TO_DO => Entry::ToDo { priority, start: first, check_off: answer.checked_off.then_some(checked) },
            kind => unreachable!("the library gives no record of kind {kind}"),
        }
    }

    /// As it is handed over to be added.
    pub(crate) fn answer(self) -> RecordAnswer {
        let none = RecordAnswer::default();
        match self {
            Entry::Dated { date, times } => RecordAnswer { kind: DATED, ..none }.first(date).times(times),
            Entry::Repeated { rule, first, last, times } => {
                rule.answer().first(first).last(last).times(times)
            }
            Entry::ToDo { priority, start, check_off } => {
                let answer = RecordAnswer { kind: TO_DO, priority, ..none }.first(start);
                check_off.map_or(answer, |date| answer.check_off(date))
            }
        }
    }
}

impl Rule {
    fn answer(self) -> RecordAnswer {
        let none = RecordAnswer::default();
        match self {
            Rule::Weekly { weekday } => RecordAnswer { kind: WEEKLY, weekday, ..none },
            Rule::MonthlyByDate { day } => RecordAnswer { kind: MONTHLY_BY_DATE, day, ..none },
            Rule::MonthlyByPosition { week, weekday } => {
                RecordAnswer { kind: MONTHLY_BY_POSITION, week, weekday, ..none }
            }
            Rule::Yearly { month, day } => RecordAnswer { kind: YEARLY, month, day, ..none },
        }
    }
}

impl RecordAnswer {
    fn first(self, Date { year, month, day }: Date) -> Self {
        RecordAnswer { first_year: year, first_month: month, first_day: day, ..self }
    }

    fn last(self, Date { year, month, day }: Date) -> Self {
        RecordAnswer { last_year: year, last_month: month, last_day: day, ..self }
    }

    fn check_off(self, Date { year, month, day }: Date) -> Self {
        let checked_off = true;
        RecordAnswer { checked_off, check_off_year: year, check_off_month: month, check_off_day: day, ..self }
    }

    fn times(self, Times { start, end, lead }: Times) -> Self {
        RecordAnswer { start, end, lead, ..self }
    }
}
