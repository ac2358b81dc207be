//! Day pages and the next occurrence.

use crate::ShortMonth;

unsafe extern "C" {
    // It takes nothing, so it is safe.
    #[link_name = "apptbook_default_last"]
    pub safe fn default_last() -> bool;
    pub fn apptbook_falls_on(file: *const u8, len: usize, record: usize, day: u16, last: bool)
        -> FallsAnswer;
    pub fn apptbook_next_occurrence(
        file: *const u8,
        len: usize,
        record: usize,
        day: u16,
        last: bool,
    ) -> OccurrenceAnswer;
    pub fn apptbook_page_lines(file: *const u8, len: usize, day: u16, last: bool) -> CountAnswer;
    pub fn apptbook_page_line(
        file: *const u8,
        len: usize,
        day: u16,
        last: bool,
        line: usize,
    ) -> PageLineAnswer;
    pub fn apptbook_page_length(file: *const u8, len: usize, day: u16, last: bool) -> CountAnswer;
    pub fn apptbook_print_page(
        file: *const u8,
        len: usize,
        day: u16,
        last: bool,
        buffer: *mut u8,
        buffer_len: usize,
    ) -> CountAnswer;
}

pub fn falls_on(file: &[u8], record: usize, day: u16, choice: ShortMonth) -> FallsAnswer {
    // SAFETY: the slice's bytes are there, and the library only reads them.
    unsafe { apptbook_falls_on(file.as_ptr(), file.len(), record, day, choice.is_last()) }
}

pub fn next_occurrence(file: &[u8], record: usize, day: u16, choice: ShortMonth) -> OccurrenceAnswer {
    // SAFETY: the slice's bytes are there, and the library only reads them.
    unsafe { apptbook_next_occurrence(file.as_ptr(), file.len(), record, day, choice.is_last()) }
}

pub fn page_lines(file: &[u8], day: u16, choice: ShortMonth) -> CountAnswer {
    // SAFETY: the slice's bytes are there, and the library only reads them.
    unsafe { apptbook_page_lines(file.as_ptr(), file.len(), day, choice.is_last()) }
}

pub fn page_line(file: &[u8], day: u16, choice: ShortMonth, line: usize) -> PageLineAnswer {
    // SAFETY: the slice's bytes are there, and the library only reads them.
    unsafe { apptbook_page_line(file.as_ptr(), file.len(), day, choice.is_last(), line) }
}

pub fn page_length(file: &[u8], day: u16, choice: ShortMonth) -> CountAnswer {
    // SAFETY: the slice's bytes are there, and the library only reads them.
    unsafe { apptbook_page_length(file.as_ptr(), file.len(), day, choice.is_last()) }
}

pub fn print_page(file: &[u8], day: u16, choice: ShortMonth, buffer: &mut [u8]) -> CountAnswer {
    let (at, len) = (buffer.as_mut_ptr(), buffer.len());
    // SAFETY: the slices' bytes are there, the library only reads the file's, and the buffer's are lent to no one
    // else.
    unsafe { apptbook_print_page(file.as_ptr(), file.len(), day, choice.is_last(), at, len) }
}

// Whether a record falls on a day.
pub const FALLS_NOT: u16 = 0;
pub const FALLS_ON_ITS_DAY: u16 = 1;
pub const FALLS_MOVED: u16 = 2;

#[repr(C)]
#[derive(Clone, Copy, Debug, Default, PartialEq, Eq)]
pub struct FallsAnswer {
    pub number: u32,
    pub place: usize,
    pub falls: u16,
}

/// Of lines, days or appointments, or of bytes written.
#[repr(C)]
#[derive(Clone, Copy, Debug, Default, PartialEq, Eq)]
pub struct CountAnswer {
    pub number: u32,
    pub place: usize,
    pub count: usize,
}

#[repr(C)]
#[derive(Clone, Copy, Debug, Default, PartialEq, Eq)]
pub struct PageLineAnswer {
    pub number: u32,
    pub place: usize,
    pub record: usize,
    pub text_at: usize,
    pub text_length: usize,
    pub start: u16,
    pub end: u16,
    pub alarm: bool,
    pub moved: bool,
}

#[repr(C)]
#[derive(Clone, Copy, Debug, Default, PartialEq, Eq)]
pub struct OccurrenceAnswer {
    pub number: u32,
    pub place: usize,
    pub looked: u32,
    pub day: u16,
    pub found: bool,
}
