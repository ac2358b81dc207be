//! Writing a book: [`open`] begins it in a lent buffer, each [`add`] adds a record, [`close`] ends it, and the file is
//! then the buffer's first `used` bytes. The same buffer is lent to each call, with the state that came back last.
//!
//! Refusals are 3, 6, 7, 8, 12 and 14, with place 0. A refusal changes no byte of the buffer, and the state that went
//! in can be handed to another call.

use crate::raw::book::{BookAnswer, RecordAnswer};
use crate::raw::writer::{self as raw, WriterAnswer};
use crate::{Record, Refusal, Settings};

/// The writing state: it goes in and comes back with each call.
#[derive(Clone, Copy, Debug, Default, PartialEq, Eq)]
pub struct Writer {
    /// Bytes of the buffer used so far; once closed, the file's length.
    pub used: usize,
    /// No more can be added.
    pub closed: bool,
}

/// Writes the identification and the settings, 12 bytes. Refused with 3 for a setting outside its range, with 12 when
/// the buffer has fewer than 15 bytes.
pub fn open(settings: Settings, buffer: &mut [u8]) -> Result<Writer, Refusal> {
    let Settings { start, granularity, lead, alarm, carry_forward } = settings;
    let (number, place, records) = (0, 0, 0);
    let settings = BookAnswer { number, place, records, start, granularity, lead, alarm, carry_forward };
    state_of(raw::open(settings, buffer))
}

/// Adds a record behind the bytes used. Refused with 14 when the state is not open, 6 for a text over 27 bytes, 7 for a
/// field outside its range, 8 for text or note against its rule, 12 where there is no room for it and the end record.
pub fn add(state: Writer, buffer: &mut [u8], record: Record) -> Result<Writer, Refusal> {
    let Record { at: _, flag, entry, text, note } = record;
    let answer = RecordAnswer { flag, ..entry.answer() };
    state_of(raw::add(state.answer(), buffer, answer, text, note))
}

/// Ends the book by its end record, 3 bytes. Refused with 14 when the state is not open, with 12 where there is no
/// room.
pub fn close(state: Writer, buffer: &mut [u8]) -> Result<Writer, Refusal> {
    state_of(raw::close(state.answer(), buffer))
}

impl Writer {
    fn answer(self) -> WriterAnswer {
        WriterAnswer { number: 0, place: 0, used: self.used, closed: self.closed }
    }
}

fn state_of(answer: WriterAnswer) -> Result<Writer, Refusal> {
    let WriterAnswer { number, place, used, closed } = answer;
    Refusal::check(number, place)?;
    Ok(Writer { used, closed })
}
