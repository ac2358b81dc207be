//! Day chains written out by hand, with their answers: the example of source 004, and three days in which numbers are
//! then changed.

mod links;
mod order;
mod sizes;
mod tables;

use crate::chains::NONE;
use crate::day_chains::DayChains;
use crate::refusal::Refusal;
use links::{HEADS, LINKS};
use order::{ORDER, SEVERAL};
use sizes::of_many_records;
use tables::{CUTS, SIZES, TABLES};

/// Of the days, or the refusal.
pub type Answer = Result<usize, Refusal>;

const fn refused(number: u32, place: usize) -> Answer {
    Err(Refusal { number, place })
}

/// Source 004, "A visual example", entry by entry. Its dates are told as the book's are.
const EXAMPLE: [u8; 85] = [
    92, 5, 18, 2, 0, //
    93, 1, 29, 53, 0, //
    93, 2, 16, 78, 0, //
    93, 2, 23, 70, 0, //
    93, 2, 30, 62, 0, //
    93, 3, 15, 12, 0, //
    93, 3, 22, 11, 0, //
    93, 3, 26, 5, 0, //
    93, 3, 28, 9, 0, //
    93, 4, 1, 8, 0, //
    93, 4, 19, 3, 0, //
    93, 4, 21, 20, 0, //
    93, 4, 24, 65, 0, //
    93, 4, 25, 74, 0, //
    93, 5, 1, 72, 0, //
    93, 10, 22, 69, 0, //
    b'?', b'?', b'?', 255, 255,
];

/// The chains that are longer than one record.
const EXAMPLE_CHAINS: [&[u16]; 4] = [&[78, 4, 1, 82], &[11, 0], &[9, 61, 63], &[20, 66]];

/// The source tells no kinds and minutes; these are record, kind and minute, and all others are events.
const EXAMPLE_TIMES: [(usize, u16, u16); 9] = [
    (4, 1, 540),
    (1, 1, 615),
    (82, 2, 0),
    (11, 1, 0),
    (0, 1, 1_439),
    (61, 2, 600),
    (63, 2, 480),
    (20, 1, 720),
    (66, 1, 720),
];

pub fn example() -> DayChains {
    let mut lent = DayChains { table: EXAMPLE.to_vec(), ..DayChains::unlinked(83, 0, 0) };
    for chain in EXAMPLE_CHAINS {
        lent.link(chain);
    }
    for (record, kind, minute) in EXAMPLE_TIMES {
        (lent.kinds[record], lent.minutes[record]) = (kind, minute);
    }
    lent
}

/// Ten records. Record 2 leads to 5, 0 and 7; 4 is alone; 1 leads to 8 and 3. No day has 6 and 9, which follow one
/// another in a circle. The last entry has the lowest date.
pub fn three_days() -> DayChains {
    DayChains {
        table: vec![
            93, 2, 16, 2, 0, //
            93, 2, 17, 4, 0, //
            93, 3, 1, 1, 0, //
            0, 0, 0, 255, 255,
        ],
        previous: vec![5, NONE, NONE, 8, NONE, 2, 9, 0, 1, 6],
        next: vec![7, 8, 5, NONE, NONE, 0, 9, NONE, 3, 6],
        kinds: vec![1, 0, 0, 2, 1, 1, 7, 2, 0, 65_535],
        minutes: vec![600, 65_535, 0, 65_535, 1_439, 600, 1_440, 1, 1_440, 65_535],
    }
}

/// Of `three_days`.
#[derive(Clone, Copy, Debug)]
pub enum Change {
    /// A byte of the table.
    Byte(usize, u8),
    /// The table is cut to so many bytes.
    Cut(usize),
    /// More bytes behind the table.
    More(&'static [u8]),
    /// A record's number in one of the arrays.
    Previous(usize, u16),
    Next(usize, u16),
    Kind(usize, u16),
    Minute(usize, u16),
    /// One array, of 0 to 3, gets a number more or loses its last.
    Longer(usize),
    Shorter(usize),
}

/// Some changes, and the answer then.
pub type Row = (&'static [Change], Answer);

pub fn changed(changes: &[Change]) -> DayChains {
    let mut lent = three_days();
    for &change in changes {
        match change {
            Change::Byte(at, byte) => lent.table[at] = byte,
            Change::Cut(length) => lent.table.truncate(length),
            Change::More(bytes) => lent.table.extend(bytes),
            Change::Previous(record, value) => lent.previous[record] = value,
            Change::Next(record, value) => lent.next[record] = value,
            Change::Kind(record, value) => lent.kinds[record] = value,
            Change::Minute(record, value) => lent.minutes[record] = value,
            Change::Longer(array) => lent.arrays()[array].push(NONE),
            Change::Shorter(array) => drop(lent.arrays()[array].pop()),
        }
    }
    lent
}

/// All that is here, with what each is about.
pub fn all() -> Vec<(String, DayChains, Answer)> {
    let mut all =
        vec![("source 004".to_string(), example(), Ok(16)), ("three days".to_string(), three_days(), Ok(3))];
    for rows in [SIZES, TABLES, HEADS, LINKS, ORDER, SEVERAL] {
        all.extend(rows.iter().map(|(changes, answer)| (format!("{changes:?}"), changed(changes), *answer)));
    }
    for (length, &entry) in CUTS.iter().enumerate() {
        all.push((format!("cut to {length}"), changed(&[Change::Cut(length)]), refused(31, entry)));
    }
    all.extend(of_many_records());
    all
}
