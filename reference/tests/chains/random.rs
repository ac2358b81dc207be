//! Day chains made at random, right and damaged ones, and all of some small kinds.

use super::compare;
use reference::chains::{ENTRY, MOST_RECORDS};
use reference::day_chains::{busy, damages, each_of_two, each_order, each_shape, right, some_lengths};
use reference::day_chains::{Cases, Plan, EDGES};
use reference::refusal::Refusal;
use reference::rng::Rng;
use reference::vectors::chains::{example, three_days};
use std::collections::BTreeMap;

#[test]
fn random_chains() {
    let mut numbers: BTreeMap<u32, usize> = BTreeMap::new();
    for case in Cases::new(Rng::for_test("random_chains")).take(60_000) {
        let answer = compare(&case.lent, case.name);
        assert_eq!(case.answer.unwrap_or(answer), answer, "{}", case.name);
        *numbers.entry(answer.map_or_else(|refusal| refusal.number, |_| 0)).or_default() += 1;
    }
    println!("chains by refusal number: {numbers:?}");
    assert!([0, 30, 31, 32, 33].iter().all(|number| numbers[number] >= 1_000), "{numbers:?}");
}

/// Each damage alone, and each pair.
#[test]
fn every_damage() {
    let mut rng = Rng::for_test("every_damage");
    let damages = damages();
    for first in &damages {
        let alone = (0..20).map(|_| None);
        let pairs = damages.iter().filter(|second| second.part > first.part).map(Some);
        for second in alone.chain(pairs) {
            let mut plan = busy(&mut rng);
            if let Some(second) = second {
                (second.apply)(&mut plan, &mut rng);
            }
            let refusal = Refusal { number: first.number, place: (first.apply)(&mut plan, &mut rng) };
            let name = format!("{}, {:?}", first.name, second.map(|second| second.name));
            assert_eq!(compare(&plan.lent, &name), Err(refusal), "{name}");
        }
    }
}

/// The table cut at every byte.
#[test]
fn every_cut() {
    let mut rng = Rng::for_test("every_cut");
    let made = (0..300).map(|_| right(&mut rng).lent).filter(|lent| lent.table.len() < 1_000);
    for mut lent in [three_days(), example()].into_iter().chain(made) {
        let whole = lent.table.clone();
        for length in 0..whole.len() {
            lent.table.truncate(length);
            let refusal = Refusal { number: 31, place: length.saturating_sub(1) / ENTRY };
            assert_eq!(compare(&lent, "cut"), Err(refusal), "{length}");
            lent.table.clone_from(&whole);
        }
    }
}

#[test]
fn all_of_two_records() {
    each_of_two(|lent| {
        let _ = compare(lent, "two records");
    });
}

#[test]
fn all_shapes_of_three_records() {
    each_shape(|lent| {
        let _ = compare(lent, "three records");
    });
}

#[test]
fn all_orders_of_four_records() {
    each_order(|lent| {
        let _ = compare(lent, "four records");
    });
}

/// As many records as there may be, or nearly, cut into chains in all ways; right, damaged, and one too many.
#[test]
fn many_records() {
    let mut rng = Rng::for_test("many_records");
    for records in EDGES {
        for _ in 0..12 {
            let plan = Plan::random(records, &some_lengths(records, &mut rng), &mut rng);
            assert_eq!(compare(&plan.lent, "all reached"), Ok(plan.days.len()));
        }
    }
    for damage in damages() {
        let plan = &mut Plan::random(MOST_RECORDS, &[2, 1_000, 2, 2_000, 1_000], &mut rng);
        let refusal = Refusal { number: damage.number, place: (damage.apply)(plan, &mut rng) };
        assert_eq!(compare(&plan.lent, damage.name), Err(refusal), "{}", damage.name);
    }
}
