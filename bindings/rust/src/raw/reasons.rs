//! Why a record is on a day, or why it is not.

use crate::ShortMonth;

unsafe extern "C" {
    pub fn apptbook_why(file: *const u8, len: usize, record: usize, day: u16, last: bool) -> ReasonAnswer;
}

pub fn why(file: &[u8], record: usize, day: u16, choice: ShortMonth) -> ReasonAnswer {
    // SAFETY: the slice's bytes are there, and the library only reads them.
    unsafe { apptbook_why(file.as_ptr(), file.len(), record, day, choice.is_last()) }
}

pub const OWN_DAY: u16 = 1;
pub const MOVED: u16 = 2;
pub const IS_TO_DO: u16 = 3;
pub const BEFORE_START: u16 = 4;
pub const AFTER_LAST_DAY: u16 = 5;
pub const WRONG_MONTH: u16 = 6;
pub const MONTH_TOO_SHORT: u16 = 7;
pub const WRONG_DAY: u16 = 8;
pub const WRONG_WEEKDAY: u16 = 9;
pub const WRONG_WEEK: u16 = 10;

#[repr(C)]
#[derive(Clone, Copy, Debug, Default, PartialEq, Eq)]
pub struct ReasonAnswer {
    pub number: u32,
    pub place: usize,
    /// 0 only on a refusal.
    pub reason: u16,
}
