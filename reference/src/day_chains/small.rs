//! All day chains of some small kinds, each shown in turn.

use super::lent::DayChains;
use crate::chains::NONE;

/// A number whose digits say what to choose; what is left of it says whether it had more digits than that.
struct Digits(usize);

impl Digits {
    fn choose<T: Copy>(&mut self, items: &[T]) -> T {
        let item = items[self.0 % items.len()];
        self.0 /= items.len();
        item
    }

    fn choose_often(&mut self, count: usize, items: &[u16]) -> Vec<u16> {
        (0..count).map(|_| self.choose(items)).collect()
    }
}

/// For every number with so many digits or less: `make` leaves none of it.
fn each(make: impl Fn(&mut Digits) -> DayChains, mut show: impl FnMut(&DayChains)) {
    for number in 0.. {
        let mut digits = Digits(number);
        let lent = make(&mut digits);
        if digits.0 > 0 {
            return;
        }
        show(&lent);
    }
}

/// Days with these heads, and a last entry.
fn table(heads: &[u16]) -> Vec<u8> {
    let mut lent = DayChains::default();
    for (day, &head) in heads.iter().enumerate() {
        lent.add_entry([93, 3, day as u8], head);
    }
    lent.add_entry([0; 3], NONE);
    lent.table
}

/// Right ones and wrong ones.
fn tables() -> Vec<Vec<u8>> {
    let mut tables = vec![vec![], table(&[])];
    for first in 0..=2 {
        tables.push(table(&[first]));
        tables.extend((0..=2).map(|second| table(&[first, second])));
    }
    let both = table(&[0, 1]);
    let mut equal = both.clone();
    equal[7] = equal[2];
    tables.extend([both[..10].to_vec(), both[..14].to_vec(), table(&[0, NONE]), table(&[NONE, 0]), equal]);
    tables
}

/// Up to two records with few different numbers, and each of some tables.
pub fn each_of_two(mut show: impl FnMut(&DayChains)) {
    let tables = tables();
    let tables: Vec<&Vec<u8>> = tables.iter().collect();
    for records in 0..=2 {
        let make = |digits: &mut Digits| DayChains {
            table: digits.choose(&tables).clone(),
            previous: digits.choose_often(records, &[0, 1, 2, NONE]),
            next: digits.choose_often(records, &[0, 1, 2, NONE]),
            kinds: digits.choose_often(records, &[0, 1, 2, 3]),
            minutes: digits.choose_often(records, &[0, 1, 1_440]),
        };
        each(make, &mut show);
    }
}

/// Three records with all previous and next ones that there can be, and all tables of up to three days.
pub fn each_shape(mut show: impl FnMut(&DayChains)) {
    const NUMBERS: [u16; 5] = [0, 1, 2, 3, NONE];
    for days in 0..=3 {
        let make = |digits: &mut Digits| DayChains {
            table: table(&digits.choose_often(days, &NUMBERS[..4])),
            previous: digits.choose_often(3, &NUMBERS),
            next: digits.choose_often(3, &NUMBERS),
            ..DayChains::unlinked(3, 0, 0)
        };
        each(make, &mut show);
    }
}

/// A chain of four records in all orders of kinds and minutes.
pub fn each_order(show: impl FnMut(&DayChains)) {
    let make = |digits: &mut Digits| {
        let mut lent = DayChains {
            table: table(&[2]),
            kinds: digits.choose_often(4, &[0, 1, 2, 3]),
            minutes: digits.choose_often(4, &[0, 1, 1_440]),
            ..DayChains::unlinked(4, 0, 0)
        };
        lent.link(&[2, 0, 3, 1]);
        lent
    };
    each(make, show);
}
