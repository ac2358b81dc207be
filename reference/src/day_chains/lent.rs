//! Day chains as they are lent to a call, and as one file for other hosts. Words have their low byte first.

use crate::chains::{ENTRY, NONE};

/// The Single Occurrence Table, and four numbers of each record.
#[derive(Clone, Debug, Default, PartialEq, Eq)]
pub struct DayChains {
    pub table: Vec<u8>,
    pub previous: Vec<u16>,
    pub next: Vec<u16>,
    pub kinds: Vec<u16>,
    pub minutes: Vec<u16>,
}

impl DayChains {
    /// All of it, as one of the two `check_chains` takes it.
    pub fn lent_to<T>(&self, check: impl Fn(&[u8], &[u16], &[u16], &[u16], &[u16]) -> T) -> T {
        check(&self.table, &self.previous, &self.next, &self.kinds, &self.minutes)
    }

    /// Records that are each alone, with this kind and minute.
    pub fn unlinked(records: usize, kind: u16, minute: u16) -> Self {
        let [previous, next, kinds, minutes] = [NONE, NONE, kind, minute].map(|value| vec![value; records]);
        DayChains { table: vec![], previous, next, kinds, minutes }
    }

    pub fn arrays(&mut self) -> [&mut Vec<u16>; 4] {
        [&mut self.previous, &mut self.next, &mut self.kinds, &mut self.minutes]
    }

    /// At the end of the table.
    pub fn add_entry(&mut self, date: [u8; 3], record: u16) {
        self.table.extend(date);
        self.table.extend(record.to_le_bytes());
    }

    /// Links these records, of which the first becomes a head.
    pub fn link(&mut self, chain: &[u16]) {
        let mut before = NONE;
        for &record in chain {
            self.previous[usize::from(record)] = before;
            if before != NONE {
                self.next[usize::from(before)] = record;
            }
            before = record;
        }
        if before != NONE {
            self.next[usize::from(before)] = NONE;
        }
    }

    pub fn date(&self, entry: usize) -> [u8; 3] {
        let at = ENTRY * entry;
        [self.table[at], self.table[at + 1], self.table[at + 2]]
    }

    pub fn put_date(&mut self, entry: usize, date: [u8; 3]) {
        self.table[ENTRY * entry..][..3].copy_from_slice(&date);
    }

    /// Dates one after the other, for all entries but the last.
    pub fn put_dates(&mut self) {
        for entry in 0..self.table.len() / ENTRY - 1 {
            let [high, low] = (entry as u16).to_be_bytes();
            self.put_date(entry, [93, high, low]);
        }
    }

    pub fn put_record(&mut self, entry: usize, record: u16) {
        self.table[ENTRY * entry + 3..][..2].copy_from_slice(&record.to_le_bytes());
    }
}

/// Of packed day chains: four words with the lengths of the arrays. The arrays and the table follow.
const HEAD: usize = 8;

/// Of up to 65,535 records.
pub fn packed(lent: &DayChains) -> Vec<u8> {
    let arrays = [&lent.previous, &lent.next, &lent.kinds, &lent.minutes];
    let lengths = arrays.map(|array| array.len() as u16);
    let words = lengths.into_iter().chain(arrays.into_iter().flatten().copied());
    words.flat_map(u16::to_le_bytes).chain(lent.table.iter().copied()).collect()
}

/// Of any file: without a head there are no records, and an array that does not fit has as many as there are.
pub fn unpacked(file: &[u8]) -> DayChains {
    let mut lent = DayChains::default();
    let Some((head, mut rest)) = file.split_at_checked(HEAD) else {
        lent.table = file.to_vec();
        return lent;
    };
    for (length, array) in words(head).into_iter().zip(lent.arrays()) {
        let (items, others) = rest.split_at(2 * usize::from(length).min(rest.len() / 2));
        *array = words(items);
        rest = others;
    }
    lent.table = rest.to_vec();
    lent
}

fn words(bytes: &[u8]) -> Vec<u16> {
    bytes.chunks_exact(2).map(|pair| u16::from_le_bytes([pair[0], pair[1]])).collect()
}
