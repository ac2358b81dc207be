//! Document 01, "The numbers given on refusal", and those of document 02.

/// A refusal's number, and the byte place it names (0 where no file byte is meant). Day chains name an entry or a
/// record.
#[derive(Clone, Copy, Debug, PartialEq, Eq)]
pub struct Refusal {
    pub number: u32,
    pub place: usize,
}

/// 10: no record, line, descriptor or appointment of that number.
pub const NO_SUCH_NUMBER: Refusal = Refusal { number: 10, place: 0 };

/// 11: day, date or span handed over outside its range.
pub const OUT_OF_RANGE: Refusal = Refusal { number: 11, place: 0 };

/// 12: lent buffer shorter than what is to be written, or a book that would be over 65,535 bytes.
pub const NO_ROOM: Refusal = Refusal { number: 12, place: 0 };

/// 13: a day's block would start at block 32,768 or later.
pub const TOO_MANY_BLOCKS: Refusal = Refusal { number: 13, place: 0 };

/// 14: writing state not opened or already closed.
pub const NOT_OPEN: Refusal = Refusal { number: 14, place: 0 };

/// 30: arrays of records of different lengths, or too long. Its place is 0.
pub const BAD_ARRAYS: u32 = 30;

/// 31: Single Occurrence Table against its rules. Its place is an entry.
pub const BAD_DAY_TABLE: u32 = 31;

/// 32: a chain's head or link against its rules. Its place is an entry where a head is meant, else a record.
pub const BAD_CHAIN: u32 = 32;

/// 33: a record of a chain with a kind or minute out of range, or out of order. Its place is that record.
pub const BAD_CHAIN_ORDER: u32 = 33;
