//! Faults to be put into right files and chains: each with the part that it is about and the number that it is refused
//! with. Of two faults the one counts whose part comes first.

use crate::rng::Rng;
use std::collections::BTreeMap;

pub struct Damage<Part, Apply> {
    pub name: &'static str,
    pub number: u32,
    pub part: Part,
    /// Puts the fault in, and gives the place of the refusal.
    pub apply: Apply,
}

/// The faults of one part that are refused with one number.
pub fn of<Part: Copy, Apply: Copy>(
    number: u32,
    part: Part,
    rows: &[(&'static str, Apply)],
) -> Vec<Damage<Part, Apply>> {
    rows.iter().map(|&(name, apply)| Damage { name, number, part, apply }).collect()
}

/// All there are of a kind, to choose from. Those of one part are chosen only seldom, once in so many times.
pub struct Damages<Part, Apply> {
    pub all: Vec<Damage<Part, Apply>>,
    pub seldom: (Part, u64),
}

impl<Part: Copy + Ord, Apply: Copy> Damages<Part, Apply> {
    pub fn one(&self, rng: &mut Rng) -> &Damage<Part, Apply> {
        loop {
            let damage = &self.all[rng.within(0..=self.all.len() - 1)];
            if damage.part != self.seldom.0 || rng.one_in(self.seldom.1) {
                return damage;
            }
        }
    }

    /// Up to three, one a part, each with its number: to be put in one after the other, so that the last of them counts.
    pub fn some(&self, rng: &mut Rng) -> Vec<(u32, Apply)> {
        let chosen = (0..3).map(|_| self.one(rng));
        let parts: BTreeMap<Part, (u32, Apply)> =
            chosen.map(|damage| (damage.part, (damage.number, damage.apply))).collect();
        parts.into_values().rev().collect()
    }
}
