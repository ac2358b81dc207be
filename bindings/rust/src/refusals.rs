//! Refusals and their numbers, as the header has them.

use std::error::Error;
use std::fmt::{self, Display, Formatter};

/// Why a call gave nothing.
#[derive(Clone, Copy, Debug, PartialEq, Eq, Hash)]
pub struct Refusal {
    /// One of the numbers of [`refusals`](crate::refusals).
    pub number: u32,
    /// The byte of the file that the refusal is about, 0 where no file byte is meant; from number 30 on the entry or
    /// the record.
    pub place: usize,
}

impl Refusal {
    /// What an answer begins with.
    pub(crate) fn check(number: u32, place: usize) -> Result<(), Self> {
        match number {
            0 => Ok(()),
            _ => Err(Refusal { number, place }),
        }
    }
}

impl Display for Refusal {
    fn fmt(&self, f: &mut Formatter) -> fmt::Result {
        write!(f, "refused with number {} at place {}", self.number, self.place)
    }
}

impl Error for Refusal {}

/// Book over 65,535 bytes.
pub const BOOK_TOO_LONG: u32 = 1;
/// First five bytes missing or different.
pub const NOT_A_BOOK: u32 = 2;
/// Settings missing or out of range.
pub const BAD_SETTINGS: u32 = 3;
/// Fewer than three head bytes, or body past the file's end.
pub const CUT_SHORT: u32 = 4;
/// Type not 1 to 6 or 50, or an end record that is not empty.
pub const UNKNOWN_TYPE: u32 = 5;
/// A record's length too small for what it holds, or text over 27 bytes.
pub const BAD_LENGTH: u32 = 6;
/// A field outside its range.
pub const BAD_FIELD: u32 = 7;
/// Text or note against its rule.
pub const BAD_TEXT: u32 = 8;
/// Over 127 bytes after the end record, or one that is not 1Ah.
pub const AFTER_END: u32 = 9;
/// No record, line, descriptor or appointment of that number.
pub const NO_SUCH_NUMBER: u32 = 10;
/// Day, date or span handed over outside its range.
pub const OUT_OF_RANGE: u32 = 11;
/// Lent buffer shorter than what is to be written.
pub const NO_ROOM: u32 = 12;
/// A day's block would start at block 32,768 or later.
pub const TOO_MANY_BLOCKS: u32 = 13;
/// Writing state not opened or already closed.
pub const NOT_OPEN: u32 = 14;

/// Calendar file over 2,228,224 bytes.
pub const CALENDAR_TOO_LONG: u32 = 20;
/// Under 64 bytes or wrong eight bytes.
pub const NOT_A_CALENDAR: u32 = 21;
/// Table past the end, day over 43,829, or days not strictly rising.
pub const BAD_TABLE: u32 = 22;
/// Block inside head or table or past the end, or its first words wrong.
pub const BAD_BLOCK: u32 = 23;
/// An appointment's size, flags, minute or closing zero wrong.
pub const BAD_APPOINTMENT: u32 = 24;

/// Arrays not equally long, or over 4,096.
pub const BAD_ARRAYS: u32 = 30;
/// An entry cut short, not after the date before it, or 65,535 misplaced.
pub const BAD_DAY_TABLE: u32 = 31;
/// A head or a next that leads nowhere, or into another chain.
pub const BAD_CHAIN: u32 = 32;
/// A record's kind, minute or order in its chain wrong.
pub const BAD_CHAIN_ORDER: u32 = 33;
