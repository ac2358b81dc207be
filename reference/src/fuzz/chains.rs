//! Day chains: right ones, damaged ones, and such with a table or an array of others.

use super::calls::Fuzz;
use super::look::Look;
use crate::chains as plain;
use crate::day_chains::{packed, scratch, Cases, DayChains};
use crate::rng::Rng;
use apptbook::raw::chains as proved;
use std::mem::swap;

pub fn round(fuzz: &mut Fuzz) {
    let chains = any_chains(&mut fuzz.rng);
    let Fuzz { rng, tally, seed, file, arrays, .. } = fuzz;
    let input = packed(&chains);
    tally.bytes += input.len() as u64;
    let [previous, next, kinds, minutes] = arrays;
    let table = file.lend(&chains.table, true, rng);
    let previous = previous.lend(&chains.previous, true, rng);
    let next = next.lend(&chains.next, true, rng);
    let kinds = kinds.lend(&chains.kinds, true, rng);
    let minutes = minutes.lend(&chains.minutes, true, rng);
    let answer =
        proved::check_chains(table.items(), previous.items(), next.items(), kinds.items(), minutes.items());
    let mut look = Look { tally, seed: *seed, input: &input };
    look.at("check_chains", answer, chains.lent_to(plain::check_chains));
    let links = previous.is(&chains.previous) && next.is(&chains.next);
    let order = kinds.is(&chains.kinds) && minutes.is(&chains.minutes);
    assert!(table.is(&chains.table) && links && order, "seed {seed}: check_chains changed what it was lent");
}

pub fn any_chains(rng: &mut Rng) -> DayChains {
    let mut cases = Cases::new(Rng::new(rng.u64())).map(|case| case.lent);
    let mut lent = cases.next().expect("a case");
    match rng.below(16) {
        0..4 => {
            for _ in 0..rng.pick(&[1, 2, 4, 16]) {
                scratch(&mut lent, rng);
            }
        }
        4 => {
            let mut other = cases.next().expect("a case");
            let array = rng.within(0..=3);
            swap(lent.arrays()[array], other.arrays()[array]);
        }
        5 => swap(&mut lent.previous, &mut lent.next),
        6 => lent.table = cases.next().expect("a case").table,
        7 => lent.table = some_bytes(rng),
        _ => (),
    }
    lent
}

fn some_bytes(rng: &mut Rng) -> Vec<u8> {
    let (count, most) = (rng.within(0..=40), rng.pick(&[1, 5, 255]));
    (0..count).map(|_| rng.within(0..=most) as u8).collect()
}
