//! Document 02, R-2: the day chains of the HP 200LX. Each entry of the Single Occurrence Table names the record that
//! heads a day's chain; of the records themselves four arrays tell the previous and the next one, kind and minute.

use crate::records::LAST_MINUTE;
use crate::refusal::{Refusal, BAD_ARRAYS, BAD_CHAIN, BAD_CHAIN_ORDER, BAD_DAY_TABLE};

pub const MOST_RECORDS: usize = 4_096;
/// The three bytes of a date, and a record number of two, the low one first.
pub const ENTRY: usize = 5;
/// Stands for no record.
pub const NONE: u16 = 65_535;
pub const EVENT: u16 = 0;
pub const APPOINTMENT: u16 = 1;
pub const TO_DO: u16 = 2;

/// The number of days: of the entries before the last.
pub fn check_chains(
    table: &[u8],
    previous: &[u16],
    next: &[u16],
    kinds: &[u16],
    minutes: &[u16],
) -> Result<usize, Refusal> {
    let records = previous.len();
    if records > MOST_RECORDS || [next, kinds, minutes].iter().any(|array| array.len() != records) {
        return Err(Refusal { number: BAD_ARRAYS, place: 0 });
    }
    let days = check_table(table)?;
    check_heads(days, previous)?;
    check_links(days, previous, next)?;
    check_order(days, next, kinds, minutes)?;
    Ok(days.len() / ENTRY)
}

/// The entries before the last. A piece at the end counts as the last one.
fn check_table(table: &[u8]) -> Result<&[u8], Refusal> {
    let refused = |place| Refusal { number: BAD_DAY_TABLE, place };
    let count = table.len().div_ceil(ENTRY).saturating_sub(1);
    let (days, last) = table.split_at(ENTRY * count);
    let mut least = 0;
    for (place, (date, head)) in entries(days).enumerate() {
        if date < least || head == NONE {
            return Err(refused(place));
        }
        least = date + 1;
    }
    match last {
        [_, _, _, 0xFF, 0xFF] => Ok(days),
        _ => Err(refused(count)),
    }
}

/// Their dates, as numbers that compare as the bytes do, and their records.
fn entries(table: &[u8]) -> impl Iterator<Item = (u32, u16)> + '_ {
    table.chunks_exact(ENTRY).map(|entry| {
        let date = u32::from_be_bytes([0, entry[0], entry[1], entry[2]]);
        (date, u16::from_le_bytes([entry[3], entry[4]]))
    })
}

fn heads(days: &[u8]) -> impl Iterator<Item = u16> + '_ {
    entries(days).map(|(_, head)| head)
}

/// In range, without a previous record, and no two the same.
fn check_heads(days: &[u8], previous: &[u16]) -> Result<(), Refusal> {
    let mut marks = [0u64; MOST_RECORDS / 64];
    for (place, head) in heads(days).map(usize::from).enumerate() {
        let (word, mark) = (head / 64, 1 << (head % 64));
        if previous.get(head) != Some(&NONE) || marks[word] & mark != 0 {
            return Err(Refusal { number: BAD_CHAIN, place });
        }
        marks[word] |= mark;
    }
    Ok(())
}

/// Each record is to name the one before it, and the head none. So none comes twice, and each walk ends.
fn check_links(days: &[u8], previous: &[u16], next: &[u16]) -> Result<(), Refusal> {
    for head in heads(days) {
        let (mut before, mut record) = (NONE, head);
        while record != NONE {
            let at = usize::from(record);
            if previous.get(at) != Some(&before) {
                return Err(Refusal { number: BAD_CHAIN, place: before.into() });
            }
            (before, record) = (record, next[at]);
        }
    }
    Ok(())
}

fn check_order(days: &[u8], next: &[u16], kinds: &[u16], minutes: &[u16]) -> Result<(), Refusal> {
    for head in heads(days) {
        let (mut least, mut record) = (0, head);
        while record != NONE {
            let at = usize::from(record);
            match rank(kinds[at], minutes[at]) {
                Some(rank) if rank >= least => least = rank,
                _ => return Err(Refusal { number: BAD_CHAIN_ORDER, place: at }),
            }
            record = next[at];
        }
    }
    Ok(())
}

/// Grows along a chain or stays. None: a kind or a minute out of range.
fn rank(kind: u16, minute: u16) -> Option<u16> {
    match kind {
        EVENT => Some(0),
        APPOINTMENT if minute <= LAST_MINUTE => Some(1 + minute),
        TO_DO => Some(LAST_MINUTE + 2),
        _ => None,
    }
}
