//! Right day chains, made at random, and which records make the chain of each day.
//!
//! Whatever is not looked at is anything: unreached records, and minutes of events and to-dos.

use super::lent::DayChains;
use crate::chains::{APPOINTMENT, NONE};
use crate::rng::Rng;
use std::collections::BTreeSet;

#[derive(Clone)]
pub struct Plan {
    pub lent: DayChains,
    /// The records of each day, in order.
    pub days: Vec<Vec<u16>>,
}

impl Plan {
    /// So many records, and chains of these lengths, which need not take all of them.
    pub fn random(records: usize, lengths: &[usize], rng: &mut Rng) -> Self {
        let mut lent = DayChains::default();
        for array in lent.arrays() {
            *array = (0..records).map(|_| any_number(records, rng)).collect();
        }
        let mut numbers: Vec<u16> = (0..records as u16).collect();
        if !rng.one_in(8) {
            rng.shuffle(&mut numbers);
        }
        let mut rest = &numbers[..];
        let mut days = vec![];
        for (date, &length) in some_dates(lengths.len(), rng).into_iter().zip(lengths) {
            let (day, others) = rest.split_at(length);
            lent.add_entry(date, day[0]);
            lent.link(day);
            put_order(&mut lent, day, rng);
            days.push(day.to_vec());
            rest = others;
        }
        lent.add_entry([rng.u8(), rng.u8(), rng.u8()], NONE);
        Plan { lent, days }
    }
}

/// Chains of these lengths that take all records, in any order, of one kind, at rising minutes, day after day.
pub fn of_one_kind(kind: u16, lengths: &[usize], rng: &mut Rng) -> DayChains {
    let Plan { mut lent, days } = Plan::random(lengths.iter().sum(), lengths, rng);
    lent.put_dates();
    for day in days {
        for (at, &record) in day.iter().enumerate() {
            lent.kinds[usize::from(record)] = kind;
            lent.minutes[usize::from(record)] = (at * 1_440 / day.len()) as u16;
        }
    }
    lent
}

/// A record's number, or what stands at some edge, or anything.
pub fn any_number(records: usize, rng: &mut Rng) -> u16 {
    match rng.below(4) {
        0 => NONE,
        1 => rng.pick(&[0, 1, 2, 3, 255, 256, 1_439, 1_440, records as u16, 65_534]),
        2 => rng.u16(),
        _ => rng.within(0..=records) as u16,
    }
}

/// Rising: near to each other, with few different bytes, or anywhere.
fn some_dates(count: usize, rng: &mut Rng) -> Vec<[u8; 3]> {
    const BYTES: [u8; 8] = [0, 1, 16, 127, 128, 200, 254, 255];
    let style = rng.below(3);
    let first = rng.within(0..=(1 << 24) - 1 - 2 * count);
    let mut dates = BTreeSet::new();
    while dates.len() < count {
        dates.insert(match style {
            0 if count < 100 => [0; 3].map(|_| rng.pick(&BYTES)),
            1 => rng.bytes(3).try_into().expect("three bytes"),
            _ => {
                let [_, date @ ..] = ((first + rng.within(0..=2 * count)) as u32).to_be_bytes();
                date
            }
        });
    }
    dates.into_iter().collect()
}

/// Kinds and minutes for a chain: any of some kinds, at any or at few minutes.
fn put_order(lent: &mut DayChains, chain: &[u16], rng: &mut Rng) {
    let some: &[u16] = rng.pick(&[&[0, 1, 2][..], &[0, 1, 1, 1, 1, 2], &[1], &[0], &[2], &[0, 2]]);
    let edges = rng.one_in(3);
    let mut order: Vec<(u16, u16)> = chain
        .iter()
        .map(|_| match rng.pick(some) {
            APPOINTMENT if edges => (APPOINTMENT, rng.pick(&[0, 600, 601, 1_439])),
            APPOINTMENT => (APPOINTMENT, rng.below(1_440) as u16),
            kind => (kind, 0),
        })
        .collect();
    order.sort();
    for (&record, (kind, minute)) in chain.iter().zip(order) {
        let record = usize::from(record);
        lent.kinds[record] = kind;
        lent.minutes[record] = if kind == APPOINTMENT { minute } else { any_number(1_440, rng) };
    }
}
