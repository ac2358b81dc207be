//! R-2 in another way, slow and word by word: each rule is a search for the first entry or record against it, heads are
//! compared in pairs, and a walk is stopped by its length alone.

use crate::chains::{APPOINTMENT, ENTRY, MOST_RECORDS, NONE, TO_DO};
use crate::day_chains::DayChains;
use crate::records::LAST_MINUTE;
use crate::refusal::Refusal;

struct Rules<'a> {
    lent: &'a DayChains,
    entries: Vec<&'a [u8]>,
}

pub fn check_chains(lent: &DayChains) -> Result<usize, Refusal> {
    let rules = Rules { lent, entries: lent.table.chunks(ENTRY).collect() };
    let refused = |number, place| Err(Refusal { number, place });
    if !rules.right_arrays() {
        return refused(30, 0);
    }
    if rules.entries.is_empty() {
        return refused(31, 0);
    }
    let days = rules.entries.len() - 1;
    if let Some(entry) = (0..=days).find(|&entry| !rules.right_entry(entry)) {
        return refused(31, entry);
    }
    if let Some(entry) = (0..days).find(|&entry| !rules.right_head(entry)) {
        return refused(32, entry);
    }
    if let Some(record) = walks(lent).into_iter().flatten().find(|&record| !rules.right_next(record)) {
        return refused(32, record);
    }
    match walks(lent).iter().find_map(|walk| rules.out_of_order(walk)) {
        Some(record) => refused(33, record),
        None => Ok(days),
    }
}

/// The records from each head on; at most one more than there are, so that one is there twice if a walk would not end.
pub fn walks(lent: &DayChains) -> Vec<Vec<usize>> {
    let walk = |entry: &[u8]| {
        let mut walk = vec![record(entry)];
        while walk.len() <= lent.next.len() {
            match lent.next.get(walk[walk.len() - 1]) {
                Some(&next) if usize::from(next) < lent.next.len() => walk.push(next.into()),
                _ => break,
            }
        }
        walk
    };
    let days = lent.table.chunks(ENTRY).take_while(|entry| !entry.ends_with(&[0xFF, 0xFF]));
    days.map(walk).collect()
}

fn record(entry: &[u8]) -> usize {
    usize::from(entry[3]) + 256 * usize::from(entry[4])
}

impl Rules<'_> {
    fn right_arrays(&self) -> bool {
        let DayChains { previous, next, kinds, minutes, .. } = self.lent;
        let lengths = [previous.len(), next.len(), kinds.len(), minutes.len()];
        lengths.iter().all(|&length| length == lengths[0] && length <= MOST_RECORDS)
    }

    fn right_entry(&self, number: usize) -> bool {
        let entry = self.entries[number];
        let last = number + 1 == self.entries.len();
        let rises = || number == 0 || self.entries[number - 1][..3] < entry[..3];
        entry.len() == ENTRY && (record(entry) == NONE.into()) == last && (last || rises())
    }

    fn right_head(&self, number: usize) -> bool {
        let head = record(self.entries[number]);
        let alone = self.entries[..number].iter().all(|entry| record(entry) != head);
        alone && self.lent.previous.get(head) == Some(&NONE)
    }

    fn right_next(&self, record: usize) -> bool {
        let next = self.lent.next[record];
        next == NONE
            || self.lent.previous.get(usize::from(next)).is_some_and(|&back| usize::from(back) == record)
    }

    fn out_of_order(&self, walk: &[usize]) -> Option<usize> {
        let DayChains { kinds, minutes, .. } = self.lent;
        let in_range = |record: usize| {
            kinds[record] <= TO_DO && (kinds[record] != APPOINTMENT || minutes[record] <= LAST_MINUTE)
        };
        let in_order = |before: usize, record: usize| {
            let both = kinds[before] == APPOINTMENT && kinds[record] == APPOINTMENT;
            kinds[before] <= kinds[record] && !(both && minutes[before] > minutes[record])
        };
        let wrong = |&at: &usize| !in_range(walk[at]) || at > 0 && !in_order(walk[at - 1], walk[at]);
        (0..walk.len()).find(wrong).map(|at| walk[at])
    }
}
