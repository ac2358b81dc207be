//! Document 01, "Writing": a book is written call by call into a lent buffer.
//!
//! A refusal changes no byte and leaves the state as it is; a success changes only the bytes written.

use crate::book::{Settings, IDENTIFICATION, LONGEST};
use crate::days::{is_real_date, Date};
use crate::notes;
use crate::records::{Entry, Rule, Times, HEAD, LAST_MINUTE, LONGEST_LEAD, LONGEST_TEXT};
use crate::refusal::{Refusal, NOT_OPEN, NO_ROOM};

const OPENED: usize = 12;
const END: [u8; 3] = [50, 0, 0];

/// The writing state, which goes in and comes back with each call.
#[derive(Clone, Copy, Debug, Default, PartialEq, Eq)]
pub struct Writer {
    /// Bytes used; of a closed state, the file's length.
    pub used: usize,
    pub closed: bool,
}

#[derive(Clone, Copy, Debug, PartialEq, Eq)]
pub struct NewRecord<'a> {
    /// State bit 0: the alarm, a to-do's carry forward.
    pub flag: bool,
    /// None where what was handed over is no entry of any kind, which counts as a field outside its range.
    pub entry: Option<Entry>,
    pub text: &'a [u8],
    pub note: &'a [u8],
}

pub fn open(settings: Settings, buffer: &mut [u8]) -> Result<Writer, Refusal> {
    if !settings_are_right(settings) {
        return refuse(3);
    }
    if buffer.len() < OPENED + END.len() {
        return Err(NO_ROOM);
    }
    let Settings { start, granularity, alarm, lead, carry_forward } = settings;
    let mut bytes = Bytes::none();
    bytes.put(IDENTIFICATION);
    bytes.put(start.to_le_bytes());
    bytes.put(granularity.to_le_bytes());
    bytes.put([alarm.into(), lead as u8, carry_forward.into()]);
    buffer[..OPENED].copy_from_slice(bytes.all());
    Ok(Writer { used: OPENED, closed: false })
}

pub fn add(writer: Writer, buffer: &mut [u8], record: NewRecord) -> Result<Writer, Refusal> {
    let NewRecord { flag, entry, text, note } = record;
    if !is_open(writer) {
        return Err(NOT_OPEN);
    }
    if text.len() > LONGEST_TEXT {
        return refuse(6);
    }
    let Some(entry) = entry.filter(entry_is_right) else { return refuse(7) };
    if text.contains(&0) || !notes::is_right(note) {
        return refuse(8);
    }
    let fixed = fixed_bytes(flag, entry, text.len(), note.len());
    let length = HEAD + fixed.all().len() + text.len() + note.len();
    if !has_room(writer, length, buffer) {
        return Err(NO_ROOM);
    }
    let [low, high] = ((length - HEAD) as u16).to_le_bytes();
    let mut used = writer.used;
    for part in [&[kind(entry), low, high], fixed.all(), text, note] {
        buffer[used..used + part.len()].copy_from_slice(part);
        used += part.len();
    }
    Ok(Writer { used, closed: false })
}

pub fn close(writer: Writer, buffer: &mut [u8]) -> Result<Writer, Refusal> {
    if !is_open(writer) {
        return Err(NOT_OPEN);
    }
    if !has_room(writer, 0, buffer) {
        return Err(NO_ROOM);
    }
    let used = writer.used + END.len();
    buffer[writer.used..used].copy_from_slice(&END);
    Ok(Writer { used, closed: true })
}

fn refuse<T>(number: u32) -> Result<T, Refusal> {
    Err(Refusal { number, place: 0 })
}

/// A state with 12 bytes or more that no `open` made is taken as it is.
fn is_open(writer: Writer) -> bool {
    writer.used >= OPENED && !writer.closed
}

/// Whether so many bytes and the end record fit in, with sums that no state can make wrap.
fn has_room(writer: Writer, bytes: usize, buffer: &[u8]) -> bool {
    let needed = writer.used as u128 + bytes as u128 + END.len() as u128;
    needed <= buffer.len() as u128 && needed <= LONGEST as u128
}

fn settings_are_right(settings: Settings) -> bool {
    let Settings { start, granularity, lead, alarm: _, carry_forward: _ } = settings;
    start <= LAST_MINUTE && (1..=720).contains(&granularity) && lead <= LONGEST_LEAD
}

fn entry_is_right(entry: &Entry) -> bool {
    match *entry {
        Entry::Dated { date, times } => is_real_date(date) && times_are_right(times),
        Entry::Repeated { rule, first, last, times } => {
            let dates = is_real_date(first) && is_real_date(last) && first <= last;
            rule_is_right(rule) && dates && times_are_right(times)
        }
        Entry::ToDo { priority, start, check_off } => {
            (1..=9).contains(&priority) && is_real_date(start) && check_off.is_none_or(is_real_date)
        }
    }
}

fn rule_is_right(rule: Rule) -> bool {
    match rule {
        Rule::Weekly { weekday } => (1..=7).contains(&weekday),
        Rule::MonthlyByDate { day } => (1..=31).contains(&day),
        Rule::MonthlyByPosition { week, weekday } => (1..=5).contains(&week) && (1..=7).contains(&weekday),
        // 2000 is a leap year, so it has every day that some year has.
        Rule::Yearly { month, day } => is_real_date(Date { year: 2000, month, day }),
    }
}

fn times_are_right(Times { start, end, lead }: Times) -> bool {
    start <= end && end <= LAST_MINUTE && lead <= LONGEST_LEAD
}

fn kind(entry: Entry) -> u8 {
    match entry {
        Entry::Dated { .. } => 1,
        Entry::Repeated { rule: Rule::Weekly { .. }, .. } => 2,
        Entry::Repeated { rule: Rule::MonthlyByDate { .. }, .. } => 3,
        Entry::Repeated { rule: Rule::MonthlyByPosition { .. }, .. } => 4,
        Entry::Repeated { rule: Rule::Yearly { .. }, .. } => 5,
        Entry::ToDo { .. } => 6,
    }
}

/// The fixed bytes after the head, of an entry whose fields are right.
fn fixed_bytes(flag: bool, entry: Entry, text: usize, note: usize) -> Bytes {
    let mut bytes = Bytes::none();
    match entry {
        Entry::Dated { date, times } => {
            bytes.put([flag.into()]);
            bytes.put(date_bytes(date));
            bytes.put(times.start.to_be_bytes());
            bytes.put(times.end.to_le_bytes());
            bytes.put([times.lead as u8]);
        }
        Entry::Repeated { rule, first, last, times } => {
            bytes.put([flag.into()]);
            match rule {
                Rule::Weekly { weekday } => bytes.put([weekday as u8]),
                Rule::MonthlyByDate { day } => bytes.put([day as u8]),
                Rule::MonthlyByPosition { week, weekday } => bytes.put([week as u8, weekday as u8]),
                Rule::Yearly { month, day } => bytes.put([month as u8, day as u8]),
            }
            bytes.put(times.start.to_be_bytes());
            bytes.put(date_bytes(first));
            bytes.put(times.end.to_le_bytes());
            bytes.put(date_bytes(last));
            bytes.put([times.lead as u8]);
        }
        Entry::ToDo { priority, start, check_off } => {
            bytes.put([u8::from(flag) + 2 * u8::from(check_off.is_some()), priority as u8]);
            bytes.put(date_bytes(start));
            bytes.put(check_off.map_or([0, 0, 0], date_bytes));
        }
    }
    bytes.put([text as u8]);
    bytes.put((note as u16).to_le_bytes());
    bytes
}

fn date_bytes(date: Date) -> [u8; 3] {
    [(date.year - 1900) as u8, date.month as u8, date.day as u8]
}

/// Up to 17 bytes: monthly by position and yearly have so many.
struct Bytes {
    bytes: [u8; 17],
    count: usize,
}

impl Bytes {
    fn none() -> Self {
        Bytes { bytes: [0; 17], count: 0 }
    }

    fn put<const N: usize>(&mut self, more: [u8; N]) {
        self.bytes[self.count..self.count + N].copy_from_slice(&more);
        self.count += N;
    }

    fn all(&self) -> &[u8] {
        &self.bytes[..self.count]
    }
}
