//! Day chains written out by hand.

use super::{compare, judged};
use apptbook::raw::chains as proved;
use apptbook::raw::pages::CountAnswer;
use reference::answers::IntoAnswer;
use reference::chains::NONE;
use reference::day_chains::DayChains;
use reference::vectors::chains::{all, example, three_days};

#[test]
fn all_by_hand() {
    for (name, lent, answer) in all() {
        assert_eq!(judged(&lent), answer.answer(), "{name}");
    }
}

/// The example of source 004, whole, with each of its heads changed, and with records at each place of a chain.
#[test]
fn the_example() {
    let lent = example();
    assert_eq!(lent.lent_to(proved::check_chains), CountAnswer { number: 0, place: 0, count: 16 });
    for entry in 0..16 {
        let mut changed = lent.clone();
        changed.put_record(entry, NONE);
        assert_eq!(judged(&changed), CountAnswer { number: 31, place: entry, count: 0 });
        changed.put_record(entry, 83);
        assert_eq!(judged(&changed), CountAnswer { number: 32, place: entry, count: 0 });
    }
    for record in [78, 4, 1, 82, 61, 0, 69] {
        let mut changed = lent.clone();
        changed.kinds[record] = 3;
        assert_eq!(judged(&changed), CountAnswer { number: 33, place: record, count: 0 });
        changed.next[record] = 83;
        assert_eq!(judged(&changed), CountAnswer { number: 32, place: record, count: 0 });
    }
}

/// No bytes and no numbers; an empty slice points to none.
#[test]
fn nothing_lent() {
    assert_eq!(proved::check_chains(&[], &[], &[], &[], &[]), CountAnswer { number: 31, place: 0, count: 0 });
    let none: [u16; 0] = [];
    let last = [0, 0, 0, 255, 255];
    assert_eq!(proved::check_chains(&last, &none, &none, &none, &none), CountAnswer::default());
}

/// Every byte of the tables by hand changed to every value, and every number of the arrays to many.
#[test]
fn every_number() {
    let mut count = 0;
    for mut lent in [three_days(), example()] {
        for at in 0..lent.table.len() {
            let byte = lent.table[at];
            for value in 0..=255 {
                lent.table[at] = value;
                count += usize::from(compare(&lent, "a byte changed").is_err());
            }
            lent.table[at] = byte;
        }
        for array in 0..4 {
            count += every_value(&mut lent, array);
        }
    }
    assert!(count > 10_000, "{count} refused");
}

/// Gives how many were refused.
fn every_value(lent: &mut DayChains, array: usize) -> usize {
    let edges = [255, 256, 257, 599, 601, 1_438, 1_439, 1_440, 4_095, 4_096, 32_767, 32_768, 65_534, NONE];
    let mut count = 0;
    for record in 0..lent.next.len() {
        let before = lent.arrays()[array][record];
        for value in (0..90).chain(edges) {
            lent.arrays()[array][record] = value;
            count += usize::from(compare(lent, "a number changed").is_err());
        }
        lent.arrays()[array][record] = before;
    }
    count
}
