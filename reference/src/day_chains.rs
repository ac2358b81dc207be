//! Day chains made at random, right ones and damaged ones, with the answer where it is known beforehand.

mod damage;
mod lent;
mod links;
mod plans;
mod small;

use crate::chains::{ENTRY, MOST_RECORDS, NONE};
use crate::damages::Damages;
use crate::refusal::Refusal;
use crate::rng::Rng;
pub use damage::{damages, Apply, Damage, Part};
pub use lent::{packed, unpacked, DayChains};
pub use plans::{any_number, of_one_kind, Plan};
pub use small::{each_of_two, each_order, each_shape};

/// At which something may change.
pub const EDGES: [usize; 8] = [1, 255, 256, 257, 2_048, 2_049, MOST_RECORDS - 1, MOST_RECORDS];

pub struct Case {
    pub name: &'static str,
    pub lent: DayChains,
    /// Where it is known beforehand.
    pub answer: Option<Result<usize, Refusal>>,
}

/// Right and damaged ones in turn, without an end. Most have few records.
pub struct Cases {
    rng: Rng,
    damages: Damages<Part, Apply>,
}

impl Iterator for Cases {
    type Item = Case;

    fn next(&mut self) -> Option<Case> {
        Some(match self.rng.below(1_000) {
            0..250 => self.right(),
            250..600 => self.damaged(),
            600..700 => self.damaged_often(),
            700..760 => self.cut(),
            760..900 => self.scratched(),
            _ => self.anything(),
        })
    }
}

impl Cases {
    pub fn new(rng: Rng) -> Self {
        Cases { rng, damages: Damages { all: damages(), seldom: (Part::Arrays, 4) } }
    }

    fn right(&mut self) -> Case {
        let Plan { lent, days } = right(&mut self.rng);
        Case { name: "right", lent, answer: Some(Ok(days.len())) }
    }

    fn damaged(&mut self) -> Case {
        let mut plan = busy(&mut self.rng);
        let &Damage { name, number, apply, .. } = self.damages.one(&mut self.rng);
        let place = apply(&mut plan, &mut self.rng);
        Case { name, lent: plan.lent, answer: Some(Err(Refusal { number, place })) }
    }

    /// Up to three parts are damaged: the first of them counts.
    fn damaged_often(&mut self) -> Case {
        let mut plan = busy(&mut self.rng);
        let mut answer = None;
        for (number, apply) in self.damages.some(&mut self.rng) {
            let place = apply(&mut plan, &mut self.rng);
            answer = Some(Err(Refusal { number, place }));
        }
        Case { name: "damaged often", lent: plan.lent, answer }
    }

    fn cut(&mut self) -> Case {
        let mut lent = right(&mut self.rng).lent;
        let length = self.rng.within(0..=lent.table.len() - 1);
        lent.table.truncate(length);
        let place = length.saturating_sub(1) / ENTRY;
        Case { name: "cut", lent, answer: Some(Err(Refusal { number: 31, place })) }
    }

    /// Some numbers of right chains are changed, most by little.
    fn scratched(&mut self) -> Case {
        let Cases { rng, .. } = self;
        let mut lent = busy(rng).lent;
        for _ in 0..rng.within(1..=3) {
            scratch(&mut lent, rng);
        }
        Case { name: "scratched", lent, answer: None }
    }

    /// Few records with few different numbers in any order.
    fn anything(&mut self) -> Case {
        let Cases { rng, .. } = self;
        let records = rng.within(0..=5);
        let mut lent = DayChains::unlinked(records, 0, 0);
        for (array, most) in lent.arrays().into_iter().zip([records, records, 2, 3]) {
            for number in array {
                *number = if rng.one_in(3) { NONE } else { rng.within(0..=most) as u16 };
            }
        }
        for day in 0..rng.below(4) {
            let date = if rng.one_in(8) { rng.u8() } else { day as u8 };
            lent.add_entry([93, 3, date], rng.within(0..=records) as u16);
        }
        lent.add_entry([0; 3], NONE);
        Case { name: "anything", lent, answer: None }
    }
}

/// Changes a byte of the table or a record's number.
pub fn scratch(lent: &mut DayChains, rng: &mut Rng) {
    let records = lent.next.len();
    if rng.one_in(3) && !lent.table.is_empty() {
        let at = rng.within(0..=lent.table.len() - 1);
        lent.table[at] = match rng.below(3) {
            0 => rng.pick(&[0, 1, 254, 255]),
            1 => lent.table[at].wrapping_add(rng.pick(&[1, 255])),
            _ => rng.u8(),
        };
        return;
    }
    let array = &mut lent.arrays()[rng.within(0..=3)];
    if !array.is_empty() {
        let at = rng.within(0..=array.len() - 1);
        array[at] = match rng.below(3) {
            0 => array[at].wrapping_add(rng.pick(&[1, 65_535])),
            1 => rng.within(0..=3) as u16,
            _ => any_number(records, rng),
        };
    }
}

/// Cuts a number of records into chains: all in one, each alone, or at random.
pub fn some_lengths(reached: usize, rng: &mut Rng) -> Vec<usize> {
    let most = match rng.below(6) {
        0 => 1,
        1 => reached,
        2 => reached.div_ceil(2),
        _ => rng.pick(&[2, 3, 8, 40]),
    };
    let mut lengths = vec![];
    let mut left = reached;
    while left > 0 {
        lengths.push(if most == reached { left } else { rng.within(1..=most.min(left)) });
        left -= lengths[lengths.len() - 1];
    }
    lengths
}

/// Any number of records, all of them reached, none, or some.
pub fn right(rng: &mut Rng) -> Plan {
    let records = match rng.below(40) {
        0 => rng.pick(&EDGES),
        1 => rng.within(0..=MOST_RECORDS),
        2..6 => rng.within(0..=300),
        _ => rng.within(0..=12),
    };
    let reached = rng.within(0..=records);
    let reached = rng.pick(&[records, reached, reached, 0]);
    Plan::random(records, &some_lengths(reached, rng), rng)
}

/// As damages need them: days of two records or more, and some records that are not reached.
pub fn busy(rng: &mut Rng) -> Plan {
    let lengths: Vec<usize> = (0..rng.within(2..=6)).map(|_| rng.within(2..=6)).collect();
    let reached: usize = lengths.iter().sum();
    let most = if rng.one_in(20) { MOST_RECORDS } else { reached + 12 };
    Plan::random(rng.within(reached + 1..=most), &lengths, rng)
}
