//! The book reader.

unsafe extern "C" {
    pub fn apptbook_read_book(file: *const u8, len: usize) -> BookAnswer;
    pub fn apptbook_record(file: *const u8, len: usize, record: usize) -> RecordAnswer;
    pub fn apptbook_note_lines(file: *const u8, len: usize, record: usize) -> LinesAnswer;
    pub fn apptbook_note_line(file: *const u8, len: usize, record: usize, line: usize) -> LineAnswer;
}

pub fn read_book(file: &[u8]) -> BookAnswer {
    // SAFETY: the slice's bytes are there, and the library only reads them.
    unsafe { apptbook_read_book(file.as_ptr(), file.len()) }
}

pub fn record(file: &[u8], record: usize) -> RecordAnswer {
    // SAFETY: the slice's bytes are there, and the library only reads them.
    unsafe { apptbook_record(file.as_ptr(), file.len(), record) }
}

pub fn note_lines(file: &[u8], record: usize) -> LinesAnswer {
    // SAFETY: the slice's bytes are there, and the library only reads them.
    unsafe { apptbook_note_lines(file.as_ptr(), file.len(), record) }
}

pub fn note_line(file: &[u8], record: usize, line: usize) -> LineAnswer {
    // SAFETY: the slice's bytes are there, and the library only reads them.
    unsafe { apptbook_note_line(file.as_ptr(), file.len(), record, line) }
}

// The kinds of records.
pub const DATED: u16 = 1;
pub const WEEKLY: u16 = 2;
pub const MONTHLY_BY_DATE: u16 = 3;
pub const MONTHLY_BY_POSITION: u16 = 4;
pub const YEARLY: u16 = 5;
pub const TO_DO: u16 = 6;

#[repr(C)]
#[derive(Clone, Copy, Debug, Default, PartialEq, Eq)]
pub struct BookAnswer {
    pub number: u32,
    pub place: usize,
    pub records: usize,
    pub start: u16,
    pub granularity: u16,
    pub lead: u16,
    pub alarm: bool,
    pub carry_forward: bool,
}

#[repr(C)]
#[derive(Clone, Copy, Debug, Default, PartialEq, Eq)]
pub struct RecordAnswer {
    pub number: u32,
    pub place: usize,
    pub at: usize,
    pub text_at: usize,
    pub text_length: usize,
    pub note_at: usize,
    pub note_length: usize,
    pub kind: u16,
    pub weekday: u16,
    pub week: u16,
    pub month: u16,
    pub day: u16,
    pub priority: u16,
    pub start: u16,
    pub end: u16,
    pub lead: u16,
    pub first_year: u16,
    pub first_month: u16,
    pub first_day: u16,
    pub last_year: u16,
    pub last_month: u16,
    pub last_day: u16,
    pub check_off_year: u16,
    pub check_off_month: u16,
    pub check_off_day: u16,
    pub flag: bool,
    pub checked_off: bool,
}

#[repr(C)]
#[derive(Clone, Copy, Debug, Default, PartialEq, Eq)]
pub struct LinesAnswer {
    pub number: u32,
    pub place: usize,
    pub lines: usize,
}

#[repr(C)]
#[derive(Clone, Copy, Debug, Default, PartialEq, Eq)]
pub struct LineAnswer {
    pub number: u32,
    pub place: usize,
    pub at: usize,
    pub length: usize,
}
