//! Hostile inputs without an end: random and damaged files and day chains, any numbers, any writing states and any
//! lengths of buffers go through every call of the proved library, and hostile command lines through the proved
//! program. Each answer and each buffer is compared with the reference.
//!
//! Every round has a seed of its own, so that a failure can be run again by itself.

pub mod calls;
pub mod chains;
mod dates;
pub mod files;
mod look;
mod memory;
pub mod numbers;
pub mod program;
mod writing;

use std::collections::BTreeMap;
use std::fmt;

/// How often each call, or kind of answer, came with each number: 0 where it was not refused.
#[derive(Default)]
pub struct Tally {
    pub counts: BTreeMap<&'static str, BTreeMap<u32, u64>>,
    /// Bytes of files that were lent.
    pub bytes: u64,
    /// Records that were asked for, and page lines, which were moved.
    pub moved: [u64; 2],
    /// How often each reason was given, by its number; 0 where it was refused.
    pub reasons: [u64; 11],
}

impl Tally {
    pub fn add(&mut self, name: &'static str, number: u32) {
        *self.counts.entry(name).or_default().entry(number).or_default() += 1;
    }

    pub fn calls(&self) -> u64 {
        self.counts.values().flat_map(|numbers| numbers.values()).sum()
    }

    /// Of all calls together.
    pub fn numbers(&self) -> BTreeMap<u32, u64> {
        let mut numbers = BTreeMap::new();
        for (&number, &count) in self.counts.values().flatten() {
            *numbers.entry(number).or_default() += count;
        }
        numbers
    }
}

impl fmt::Display for Tally {
    fn fmt(&self, out: &mut fmt::Formatter) -> fmt::Result {
        let line = |numbers: &BTreeMap<u32, u64>| -> String {
            let parts = numbers.iter().map(|(number, count)| format!("  {number}: {count}"));
            parts.collect()
        };
        for (name, numbers) in &self.counts {
            writeln!(out, "{name:<24}{:>12}  {}", numbers.values().sum::<u64>(), line(numbers))?;
        }
        writeln!(out, "{:<24}{:>12}  {}", "all", self.calls(), line(&self.numbers()))
    }
}
