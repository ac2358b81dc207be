//! Files still to be written: settings, records, the end record, and fillers after it.

use super::drafts::{Draft, SETTINGS};
use super::fillers::{self, FILLER};
use crate::book::IDENTIFICATION;
use crate::rng::Rng;

/// A file, and the places of its records and of its end record.
#[derive(Clone)]
pub struct File {
    pub bytes: Vec<u8>,
    pub places: Vec<usize>,
}

impl File {
    pub fn new(settings: [u8; 7], records: &[Draft]) -> Self {
        let mut file = File { bytes: [&IDENTIFICATION[..], &settings].concat(), places: vec![] };
        for record in records.iter().map(Draft::bytes).chain([vec![50, 0, 0]]) {
            file.places.push(file.bytes.len());
            file.bytes.extend(record);
        }
        file
    }

    /// With any settings, and often with fillers.
    pub fn random(records: &[Draft], rng: &mut Rng) -> Self {
        let mut file = File::unfilled(records, rng);
        file.fill_often(rng);
        file
    }

    /// With any settings.
    pub fn unfilled(records: &[Draft], rng: &mut Rng) -> Self {
        let [start_low, start_high] = (rng.within(0..=1_439) as u16).to_le_bytes();
        let [low, high] = (rng.within(1..=720) as u16).to_le_bytes();
        let (alarm, lead, carry) = (rng.below(2) as u8, rng.within(0..=30) as u8, rng.below(2) as u8);
        let mut file = File::new([start_low, start_high, low, high, alarm, lead, carry], records);
        for &(at, _, values) in SETTINGS.iter().filter(|setting| setting.1 == 0) {
            if rng.one_in(3) {
                file.put(at, rng.pick(values));
            }
        }
        file
    }

    /// As many records as `size` bytes hold.
    pub fn full(size: usize, mut record: impl FnMut() -> Draft) -> Self {
        let mut records = vec![record()];
        let mut rest = size - 15 - records[0].bytes().len();
        loop {
            let record = record();
            let Some(less) = rest.checked_sub(record.bytes().len()) else { break };
            rest = less;
            records.push(record);
        }
        File::padded(size, records)
    }

    /// The last record is padded to make the file `size` bytes long.
    pub fn padded(size: usize, mut records: Vec<Draft>) -> Self {
        let used: usize = records.iter().map(|record| record.bytes().len()).sum();
        let last = records.last_mut().expect("a record");
        last.padding.resize(last.padding.len() + size - 15 - used, 50);
        File::new([0xE0, 1, 30, 0, 1, 5, 0], &records)
    }

    pub fn put(&mut self, at: usize, value: &[u8]) {
        self.bytes[at..at + value.len()].copy_from_slice(value);
    }

    /// So many fillers come after the end record, and nothing else.
    pub fn fill(&mut self, count: usize) {
        self.bytes.truncate(self.after_end());
        self.bytes.resize(self.after_end() + count, FILLER);
    }

    /// With none, with some up to a whole block, or with any number.
    pub fn fill_often(&mut self, rng: &mut Rng) {
        self.fill(fillers::some(self.after_end(), rng));
    }

    /// The end record's place.
    pub fn end(&self) -> usize {
        self.places[self.places.len() - 1]
    }

    /// The first filler's place.
    pub fn after_end(&self) -> usize {
        self.end() + 3
    }

    pub fn last_record(&self) -> usize {
        self.places[self.places.len() - 2]
    }
}
