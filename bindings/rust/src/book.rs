//! Reading a book. Each call judges the whole file first and refuses it with 1 to 9; then comes 10, with place 0.
//! Records and lines of a note count from 0.

use crate::raw::book as raw;
use crate::records::Record;
use crate::Refusal;

/// A book's settings and the number of its records.
#[derive(Clone, Copy, Debug, Default, PartialEq, Eq)]
pub struct Book {
    /// To-dos too, the end record not.
    pub records: usize,
    /// As they are in the file.
    pub settings: Settings,
}

/// What a book says before its first record.
#[derive(Clone, Copy, Debug, Default, PartialEq, Eq)]
pub struct Settings {
    /// Display start, a minute.
    pub start: u16,
    /// Of the display, in minutes, 1 to 720.
    pub granularity: u16,
    /// Default lead time in minutes, 0 to 30.
    pub lead: u16,
    /// Alarm on.
    pub alarm: bool,
    /// To-dos carry forward by default.
    pub carry_forward: bool,
}

/// The settings and the number of records.
pub fn read_book(file: &[u8]) -> Result<Book, Refusal> {
    let raw::BookAnswer { number, place, records, start, granularity, lead, alarm, carry_forward } =
        raw::read_book(file);
    Refusal::check(number, place)?;
    Ok(Book { records, settings: Settings { start, granularity, lead, alarm, carry_forward } })
}

/// The record of that number. Refused with 10 when there are not so many.
pub fn record(file: &[u8], record: usize) -> Result<Record<'_>, Refusal> {
    let answer = raw::record(file, record);
    Refusal::check(answer.number, answer.place)?;
    Ok(Record::read(&answer, file))
}

/// How many lines the record's note has, 0 to 11. Refused with 10 when there is no such record.
pub fn note_lines(file: &[u8], record: usize) -> Result<usize, Refusal> {
    let answer = raw::note_lines(file, record);
    Refusal::check(answer.number, answer.place)?;
    Ok(answer.lines)
}

/// A line of the record's note, 0 to 39 bytes of the file. Refused with 10 when there is no such record or no such
/// line.
pub fn note_line(file: &[u8], record: usize, line: usize) -> Result<&[u8], Refusal> {
    let answer = raw::note_line(file, record, line);
    Refusal::check(answer.number, answer.place)?;
    Ok(&file[answer.at..answer.at + answer.length])
}
