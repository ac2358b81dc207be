//! The export of a book to a Windows Calendar file.

use crate::{raw, Refusal, ShortMonth};

/// Writes `count` days of a book, from Calendar day `first` on, as a Calendar file to the start of the buffer: how many
/// bytes were written. 2,228,224 bytes of buffer are always enough.
///
/// The whole book is judged first (1 to 9). Then come, with place 0 and in this order, 11 for a first day over 43,829,
/// a count over 366 or days past 43,829; 13 for a block too far on; 12 where the buffer is shorter than the file. A
/// refusal changes no byte.
pub fn export(
    file: &[u8],
    first: u16,
    count: u16,
    choice: ShortMonth,
    buffer: &mut [u8],
) -> Result<usize, Refusal> {
    raw::export::export(file, first, count, choice, buffer).counted()
}
