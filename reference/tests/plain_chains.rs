//! The plain judgement of day chains alone: cases by hand, a third way to judge them, and whether the makers of chains
//! know what they make.

use reference::chain_rules::{self, walks};
use reference::chains::{check_chains, MOST_RECORDS};
use reference::day_chains::{busy, damages, each_of_two, each_order, each_shape, right};
use reference::day_chains::{packed, unpacked, Cases, DayChains, Plan, EDGES};
use reference::refusal::Refusal;
use reference::rng::Rng;
use reference::vectors::chains::{all, example};
use std::collections::{BTreeMap, BTreeSet};

fn judged(lent: &DayChains) -> Result<usize, Refusal> {
    lent.lent_to(check_chains)
}

#[test]
fn by_hand() {
    for (name, lent, answer) in all() {
        assert_eq!(judged(&lent), answer, "{name}");
    }
}

/// Document 004 draws the chains; these are their records.
#[test]
fn the_example_is_as_drawn() {
    const DRAWN: [&[usize]; 16] = [
        &[2],
        &[53],
        &[78, 4, 1, 82],
        &[70],
        &[62],
        &[12],
        &[11, 0],
        &[5],
        &[9, 61, 63],
        &[8],
        &[3],
        &[20, 66],
        &[65],
        &[74],
        &[72],
        &[69],
    ];
    assert_eq!(walks(&example()), DRAWN);
}

/// The third way, which is to give the same; and chains that were accepted share no record.
fn compare(lent: &DayChains) -> Result<usize, Refusal> {
    let answer = judged(lent);
    assert_eq!(answer, chain_rules::check_chains(lent), "{lent:?}");
    if answer.is_ok() {
        let walks = walks(lent);
        let records: BTreeSet<usize> = walks.iter().flatten().copied().collect();
        assert_eq!(records.len(), walks.iter().map(Vec::len).sum::<usize>(), "{lent:?}");
    }
    answer
}

/// How often each number came; 0: accepted.
#[derive(Default)]
struct Numbers(BTreeMap<u32, usize>);

impl Numbers {
    fn add(&mut self, answer: Result<usize, Refusal>) {
        *self.0.entry(answer.map_or_else(|refusal| refusal.number, |_| 0)).or_default() += 1;
    }
}

#[test]
fn by_hand_in_a_third_way() {
    for (name, lent, answer) in all() {
        assert_eq!(chain_rules::check_chains(&lent), answer, "{name}");
    }
}

#[test]
fn all_of_two_records() {
    let mut numbers = Numbers::default();
    each_of_two(|lent| numbers.add(compare(lent)));
    println!("{:?}", numbers.0);
    assert!([0, 31, 32, 33].iter().all(|number| numbers.0[number] >= 1_000), "{:?}", numbers.0);
}

#[test]
fn all_shapes_of_three_records() {
    let mut numbers = Numbers::default();
    each_shape(|lent| numbers.add(compare(lent)));
    println!("{:?}", numbers.0);
    // No days, one, two, three: 5 to the sixth each time, but for the heads.
    assert_eq!(numbers.0.values().sum::<usize>(), (1 + 4 + 16 + 64) * 15_625);
    assert!([0, 32].iter().all(|number| numbers.0[number] >= 1_000), "{:?}", numbers.0);
}

/// Accepted are, with so many appointments, at minutes 0 and 1, and events and to-dos around them at any of the three
/// minutes: 0: 5 x 81, 1: 4 x 27 x 2, 2: 3 x 9 x 3, 3: 2 x 3 x 4, 4: 5.
#[test]
fn all_orders_of_four_records() {
    let mut numbers = Numbers::default();
    each_order(|lent| numbers.add(compare(lent)));
    let accepted = 405 + 216 + 81 + 24 + 5;
    assert_eq!(numbers.0, BTreeMap::from([(0, accepted), (33, 12usize.pow(4) - accepted)]));
}

/// Each damage alone; of two, that of the earlier part counts.
#[test]
fn two_damages() {
    let mut rng = Rng::for_test("two_damages");
    let damages = damages();
    for first in &damages {
        for second in &damages {
            let mut plan = busy(&mut rng);
            if first.part < second.part {
                (second.apply)(&mut plan, &mut rng);
            }
            let place = (first.apply)(&mut plan, &mut rng);
            let refusal = Refusal { number: first.number, place };
            assert_eq!(compare(&plan.lent), Err(refusal), "{}, {}", first.name, second.name);
        }
    }
}

/// Every damage and every refusal comes up, and where the answer was known it was right.
#[test]
fn the_cases_made_at_random() {
    let cases = 40_000;
    let mut names: BTreeMap<&str, usize> = BTreeMap::new();
    let mut numbers = Numbers::default();
    for case in Cases::new(Rng::for_test("the_cases_made_at_random")).take(cases) {
        let answer = compare(&case.lent);
        assert_eq!(case.answer.unwrap_or(answer), answer, "{}: {:?}", case.name, case.lent);
        *names.entry(case.name).or_default() += 1;
        numbers.add(answer);
    }
    println!("cases by refusal number: {:?}; {names:#?}", numbers.0);
    assert!([0, 30, 31, 32, 33].iter().all(|number| numbers.0[number] >= cases / 50), "{:?}", numbers.0);
    let families = ["right", "damaged often", "cut", "scratched", "anything"].into_iter();
    let missing: Vec<_> = damages().iter().map(|damage| damage.name).chain(families).collect();
    let missing: Vec<_> = missing.into_iter().filter(|name| !names.contains_key(name)).collect();
    assert!(missing.is_empty(), "never made: {missing:?}");
}

/// Sizes, ways to be chained and kinds that right chains are to have now and then.
#[test]
fn right_chains_of_all_kinds() {
    let mut rng = Rng::for_test("right_chains_of_all_kinds");
    let (mut sizes, mut seen) = (BTreeSet::new(), BTreeSet::new());
    for _ in 0..20_000 {
        let Plan { lent, days } = right(&mut rng);
        let reached: usize = days.iter().map(Vec::len).sum();
        let records = lent.next.len();
        assert_eq!(judged(&lent), Ok(days.len()));
        sizes.insert(records);
        seen.extend((reached > 0 && reached == records).then_some("all reached"));
        seen.extend((reached == 0 && records > 0).then_some("none reached"));
        seen.extend((reached > 0 && reached < records).then_some("some reached"));
        seen.extend((days.len() == 1 && reached > 100).then_some("one long chain"));
        seen.extend((days.len() > 100 && days.len() == reached).then_some("each alone"));
        let order = |day: &Vec<u16>| day.iter().map(|&record| lent.kinds[usize::from(record)]).collect();
        let orders: BTreeSet<Vec<u16>> = days.iter().map(order).collect();
        seen.extend(orders.contains(&vec![0, 1, 2]).then_some("event, appointment, to-do"));
        seen.extend(orders.contains(&vec![0, 2]).then_some("event, to-do"));
    }
    println!("{} sizes, {seen:?}", sizes.len());
    assert_eq!(seen.len(), 7, "{seen:?}");
    assert!(EDGES.iter().chain(&[0, 2]).all(|edge| sizes.contains(edge)), "{sizes:?}");
    assert_eq!(sizes.last(), Some(&MOST_RECORDS));
}

#[test]
fn packed_and_unpacked() {
    for case in Cases::new(Rng::for_test("packed_and_unpacked")).take(2_000) {
        if case.lent.next.len() < 65_536 {
            assert_eq!(unpacked(&packed(&case.lent)), case.lent);
        }
    }
    let words = |bytes: &[u8]| unpacked(bytes);
    assert_eq!(words(&[1, 0, 2, 0, 0, 0, 0]).table, [1, 0, 2, 0, 0, 0, 0]);
    let short = words(&[2, 0, 255, 255, 0, 0, 0, 0, 1, 2, 3, 4, 5, 6, 7]);
    assert_eq!((short.previous, short.next), (vec![0x0201, 0x0403], vec![0x0605]));
    assert_eq!((short.kinds, short.minutes, short.table), (vec![], vec![], vec![7]));
}
