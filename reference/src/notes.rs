//! Document 01, "Ranges": notes and their lines.

use std::ops::Range;

pub const LONGEST: usize = 440;
pub const MOST_LINES: usize = 11;
pub const LONGEST_LINE: usize = 39;

/// A zero byte ends a line; bytes after the last zero form one more line if there are any.
/// A line is given as its stretch of the note, without its zero.
pub fn lines(note: &[u8]) -> impl Iterator<Item = Range<usize>> + '_ {
    let mut next = 0;
    note.split_inclusive(|&byte| byte == 0).map(move |line| {
        let at = next;
        next += line.len();
        at..at + line.strip_suffix(&[0]).unwrap_or(line).len()
    })
}

#[inline(always)] // in the reader's loop
pub fn is_right(note: &[u8]) -> bool {
    let right = |(number, line): (usize, Range<usize>)| number < MOST_LINES && line.len() <= LONGEST_LINE;
    note.len() <= LONGEST && lines(note).enumerate().all(right)
}
