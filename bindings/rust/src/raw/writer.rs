//! The book writer.

use super::book::{BookAnswer, RecordAnswer};

unsafe extern "C" {
    pub fn apptbook_open(settings: BookAnswer, buffer: *mut u8, len: usize) -> WriterAnswer;
    pub fn apptbook_add(
        state: WriterAnswer,
        buffer: *mut u8,
        len: usize,
        record: RecordAnswer,
        text: *const u8,
        text_len: usize,
        note: *const u8,
        note_len: usize,
    ) -> WriterAnswer;
    pub fn apptbook_close(state: WriterAnswer, buffer: *mut u8, len: usize) -> WriterAnswer;
}

pub fn open(settings: BookAnswer, buffer: &mut [u8]) -> WriterAnswer {
    // SAFETY: the slice's bytes are there and lent to no one else.
    unsafe { apptbook_open(settings, buffer.as_mut_ptr(), buffer.len()) }
}

pub fn add(
    state: WriterAnswer,
    buffer: &mut [u8],
    record: RecordAnswer,
    text: &[u8],
    note: &[u8],
) -> WriterAnswer {
    let (at, len) = (buffer.as_mut_ptr(), buffer.len());
    // SAFETY: the slices' bytes are there, the buffer's are lent to no one else, and the library only reads the
    // text's and the note's.
    unsafe { apptbook_add(state, at, len, record, text.as_ptr(), text.len(), note.as_ptr(), note.len()) }
}

pub fn close(state: WriterAnswer, buffer: &mut [u8]) -> WriterAnswer {
    // SAFETY: the slice's bytes are there and lent to no one else.
    unsafe { apptbook_close(state, buffer.as_mut_ptr(), buffer.len()) }
}

/// Both the state that goes in, where number and place are ignored, and the answer.
#[repr(C)]
#[derive(Clone, Copy, Debug, Default, PartialEq, Eq)]
pub struct WriterAnswer {
    pub number: u32,
    pub place: usize,
    pub used: usize,
    pub closed: bool,
}
