//! The export.

use super::pages::CountAnswer;
use crate::ShortMonth;

unsafe extern "C" {
    pub fn apptbook_export(
        file: *const u8,
        len: usize,
        first: u16,
        count: u16,
        last: bool,
        buffer: *mut u8,
        buffer_len: usize,
    ) -> CountAnswer;
}

pub fn export(file: &[u8], first: u16, count: u16, choice: ShortMonth, buffer: &mut [u8]) -> CountAnswer {
    let (at, len) = (buffer.as_mut_ptr(), buffer.len());
    // SAFETY: the slices' bytes are there, the library only reads the file's, and the buffer's are lent to no one
    // else.
    unsafe { apptbook_export(file.as_ptr(), file.len(), first, count, choice.is_last(), at, len) }
}
