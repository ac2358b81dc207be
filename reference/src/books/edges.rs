//! Notes at the edges of their rule: 440 bytes, 11 lines, 39 bytes a line.

use crate::notes::{LONGEST, LONGEST_LINE, MOST_LINES};

const LETTER: u8 = b'x';

/// Right ones and others: one byte again and again, 12 bytes with zeros at any places, and lines of which one is longer or
/// shorter than the others, with and without a zero at the end.
pub fn edge_notes() -> Vec<Vec<u8>> {
    let same =
        [0, LETTER].into_iter().flat_map(|byte| (0..=LONGEST + 5).map(move |length| vec![byte; length]));
    let zeros = (0..1 << (MOST_LINES + 1)).map(|places| bytes_with_zeros(MOST_LINES + 1, places));
    same.chain(zeros).chain(odd_lines()).collect()
}

fn bytes_with_zeros(length: usize, places: usize) -> Vec<u8> {
    (0..length).map(|at| if places >> at & 1 == 1 { 0 } else { LETTER }).collect()
}

fn odd_lines() -> Vec<Vec<u8>> {
    let mut notes = Vec::new();
    for count in 1..=MOST_LINES + 1 {
        for odd in 0..count {
            for others in [0, 1, LONGEST_LINE] {
                for length in [0, 1, LONGEST_LINE - 1, LONGEST_LINE, LONGEST_LINE + 1] {
                    let lines =
                        (0..count).map(|line| vec![LETTER; if line == odd { length } else { others }]);
                    let mut note = lines.collect::<Vec<_>>().join(&0);
                    notes.push(note.clone());
                    note.push(0);
                    notes.push(note);
                }
            }
        }
    }
    notes
}
