//! Document 01, "The book" and its ranges: the body of a record.

use crate::days::{is_real_date, Date};
use crate::notes;
use std::ops::{Range, RangeInclusive};

pub const HEAD: usize = 3;
pub const LONGEST_TEXT: usize = 27;
pub const LAST_MINUTE: u16 = 1_439;
pub const LONGEST_LEAD: u16 = 30;

/// Text and note are stretches of the file.
#[derive(Clone, Debug, PartialEq, Eq)]
pub struct Record {
    /// The place of its type byte.
    pub at: usize,
    /// State bit 0: the alarm, a to-do's carry forward.
    pub flag: bool,
    pub entry: Entry,
    pub text: Range<usize>,
    pub note: Range<usize>,
}

#[derive(Clone, Copy, Debug, PartialEq, Eq)]
pub enum Entry {
    Dated { date: Date, times: Times },
    Repeated { rule: Rule, first: Date, last: Date, times: Times },
    ToDo { priority: u16, start: Date, check_off: Option<Date> },
}

#[derive(Clone, Copy, Debug, PartialEq, Eq)]
pub enum Rule {
    Weekly { weekday: u16 },
    MonthlyByDate { day: u16 },
    MonthlyByPosition { week: u16, weekday: u16 },
    Yearly { month: u16, day: u16 },
}

#[derive(Clone, Copy, Debug, PartialEq, Eq)]
pub struct Times {
    pub start: u16,
    pub end: u16,
    pub lead: u16,
}

/// Judges the body of a record of type 1 to 6 that stands at `at`; an error is the refusal's number.
#[inline(always)] // so that no record is made where records are only counted
pub fn read(kind: u8, at: usize, body: &[u8]) -> Result<Record, u32> {
    let fixed = match kind {
        1 => 12,
        2 | 3 => 16,
        4 | 5 => 17,
        _ => 11,
    };
    let Some((fields, rest)) = body.split_at_checked(fixed) else { return Err(6) };
    let text_length = usize::from(fields[fixed - 3]);
    let note_length = usize::from(u16::from_le_bytes([fields[fixed - 2], fields[fixed - 1]]));
    if text_length > LONGEST_TEXT || text_length + note_length > rest.len() {
        return Err(6);
    }
    let (flag, entry) = entry(kind, fields).ok_or(7u32)?;
    let (text, rest) = rest.split_at(text_length);
    if text.contains(&0) || !notes::is_right(&rest[..note_length]) {
        return Err(8);
    }
    let text_at = at + HEAD + fixed;
    let note_at = text_at + text_length;
    Ok(Record { at, flag, entry, text: text_at..note_at, note: note_at..note_at + note_length })
}

/// State bit 0 and what the fields say; None when one is outside its range.
fn entry(kind: u8, fields: &[u8]) -> Option<(bool, Entry)> {
    let mut fields = Fields(fields);
    let state = fields.byte();
    let entry = match kind {
        1 => dated(&mut fields)?,
        6 => to_do(&mut fields, state & 2 != 0)?,
        _ => repeated(&mut fields, kind)?,
    };
    Some((state & 1 != 0, entry))
}

fn dated(fields: &mut Fields) -> Option<Entry> {
    let date = fields.date()?;
    let times = times(fields.high_first(), fields.low_first(), fields.byte())?;
    Some(Entry::Dated { date, times })
}

fn repeated(fields: &mut Fields, kind: u8) -> Option<Entry> {
    let rule = rule(fields, kind)?;
    let (start, first) = (fields.high_first(), fields.date()?);
    let (end, last, lead) = (fields.low_first(), fields.date()?, fields.byte());
    let times = times(start, end, lead)?;
    (first <= last).then_some(Entry::Repeated { rule, first, last, times })
}

fn rule(fields: &mut Fields, kind: u8) -> Option<Rule> {
    Some(match kind {
        2 => Rule::Weekly { weekday: fields.within(1..=7)? },
        3 => Rule::MonthlyByDate { day: fields.within(1..=31)? },
        4 => Rule::MonthlyByPosition { week: fields.within(1..=5)?, weekday: fields.within(1..=7)? },
        _ => {
            let (month, day) = (fields.byte(), fields.byte());
            // 2000 is a leap year, so it has every day that some year has.
            return is_real_date(Date { year: 2000, month, day }).then_some(Rule::Yearly { month, day });
        }
    })
}

fn to_do(fields: &mut Fields, checked_off: bool) -> Option<Entry> {
    let priority = fields.within(1..=9)?;
    let start = fields.date()?;
    let check_off = if checked_off {
        Some(fields.date()?)
    } else if fields.take() == [0, 0, 0] {
        None
    } else {
        return None;
    };
    Some(Entry::ToDo { priority, start, check_off })
}

fn times(start: u16, end: u16, lead: u16) -> Option<Times> {
    (start <= end && end <= LAST_MINUTE && lead <= LONGEST_LEAD).then_some(Times { start, end, lead })
}

/// The fields not yet taken.
struct Fields<'a>(&'a [u8]);

impl Fields<'_> {
    fn take<const N: usize>(&mut self) -> [u8; N] {
        let (taken, rest) = self.0.split_first_chunk().expect("all fixed bytes are there");
        self.0 = rest;
        *taken
    }

    fn byte(&mut self) -> u16 {
        let [byte] = self.take();
        u16::from(byte)
    }

    fn low_first(&mut self) -> u16 {
        u16::from_le_bytes(self.take())
    }

    fn high_first(&mut self) -> u16 {
        u16::from_be_bytes(self.take())
    }

    fn within(&mut self, range: RangeInclusive<u16>) -> Option<u16> {
        Some(self.byte()).filter(|byte| range.contains(byte))
    }

    #[inline(always)] // as in `read`, however many others ask for dates
    fn date(&mut self) -> Option<Date> {
        let date = Date { year: 1900 + self.byte(), month: self.byte(), day: self.byte() };
        Some(date).filter(|&date| is_real_date(date))
    }
}
