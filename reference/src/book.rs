//! Document 01, "The book", with request R-1: the whole file. Every call judges all of it before it answers.

use crate::notes;
use crate::records::{self, Record, HEAD, LAST_MINUTE, LONGEST_LEAD};
use crate::refusal::{Refusal, NO_SUCH_NUMBER};
use std::ops::Range;

pub const LONGEST: usize = 65_535;
pub const IDENTIFICATION: [u8; 5] = [0xFF, 0xFF, 0x01, 0x00, 0x01];
const SETTINGS: Range<usize> = 5..12;

/// What a file from a modem is filled up with, to whole blocks of 128 bytes.
const FILLER: u8 = 0x1A;
const MOST_FILLERS: usize = 127;

#[derive(Clone, Copy, Debug, PartialEq, Eq)]
pub struct Settings {
    pub start: u16,
    pub granularity: u16,
    pub alarm: bool,
    pub lead: u16,
    pub carry_forward: bool,
}

#[derive(Clone, Copy, Debug, PartialEq, Eq)]
pub struct Book {
    pub settings: Settings,
    /// How many there are, to-dos too, without the end record.
    pub records: usize,
}

pub fn read_book(file: &[u8]) -> Result<Book, Refusal> {
    let mut records = 0;
    let settings = read(file, |_| records += 1)?;
    Ok(Book { settings, records })
}

pub fn records(file: &[u8]) -> Result<Vec<Record>, Refusal> {
    let mut records = Vec::new();
    read(file, |record| records.push(record))?;
    Ok(records)
}

pub fn record(file: &[u8], number: usize) -> Result<Record, Refusal> {
    let mut before = 0;
    let mut found = None;
    read(file, |record| {
        if before == number {
            found = Some(record);
        }
        before += 1;
    })?;
    found.ok_or(NO_SUCH_NUMBER)
}

pub fn note_lines(file: &[u8], number: usize) -> Result<usize, Refusal> {
    let note = record(file, number)?.note;
    Ok(notes::lines(&file[note]).count())
}

/// The line's stretch of the file, without its zero.
pub fn note_line(file: &[u8], number: usize, line: usize) -> Result<Range<usize>, Refusal> {
    let note = record(file, number)?.note;
    let line = notes::lines(&file[note.clone()]).nth(line).ok_or(NO_SUCH_NUMBER)?;
    Ok(note.start + line.start..note.start + line.end)
}

/// Judges the file, and shows each record in turn.
pub(crate) fn read(file: &[u8], mut show: impl FnMut(Record)) -> Result<Settings, Refusal> {
    if file.len() > LONGEST {
        return Err(Refusal { number: 1, place: 0 });
    }
    if !file.starts_with(&IDENTIFICATION) {
        return Err(Refusal { number: 2, place: 0 });
    }
    let missing = Refusal { number: 3, place: SETTINGS.start };
    let settings = file.get(SETTINGS).and_then(settings).ok_or(missing)?;
    let mut at = SETTINGS.end;
    loop {
        let refusal = |number| Refusal { number, place: at };
        let &[kind, low, high, ..] = &file[at..] else { return Err(refusal(4)) };
        let length = usize::from(u16::from_le_bytes([low, high]));
        let body = at + HEAD..at + HEAD + length;
        match kind {
            1..=6 => (),
            50 if length == 0 => return fillers(file, body.end).map(|()| settings),
            _ => return Err(refusal(5)),
        }
        let bytes = file.get(body.clone()).ok_or(refusal(4))?;
        show(records::read(kind, at, bytes).map_err(refusal)?);
        at = body.end;
    }
}

/// What stands from there on, after the end record: no more fillers than there may be, and nothing else.
fn fillers(file: &[u8], end: usize) -> Result<(), Refusal> {
    let wrong = match file.len() - end {
        0..=MOST_FILLERS => file[end..].iter().position(|&byte| byte != FILLER),
        _ => Some(0),
    };
    wrong.map_or(Ok(()), |at| Err(Refusal { number: 9, place: end + at }))
}

fn settings(bytes: &[u8]) -> Option<Settings> {
    let &[start_low, start_high, low, high, alarm, lead, carry_forward] = bytes else { return None };
    let start = u16::from_le_bytes([start_low, start_high]);
    let granularity = u16::from_le_bytes([low, high]);
    let lead = u16::from(lead);
    let right = start <= LAST_MINUTE
        && (1..=720).contains(&granularity)
        && alarm <= 1
        && lead <= LONGEST_LEAD
        && carry_forward <= 1;
    right.then_some(Settings {
        start,
        granularity,
        alarm: alarm == 1,
        lead,
        carry_forward: carry_forward == 1,
    })
}
