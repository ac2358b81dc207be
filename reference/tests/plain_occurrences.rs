//! When a record falls, by the plain reference: set P, and every rule against a third way to find the days.

use reference::book;
use reference::books::{any_entry, book_near, edge_day};
use reference::days::{all_facts, Date, Facts, LAST_DAY};
use reference::occurrences::{occurrences, rules, soonest, Showing};
use reference::pages::ShortMonth::{self, Last, Skip};
use reference::pages::{self, Falls, Search, CHOICES};
use reference::records::{Entry, Rule, Times};
use reference::rng::Rng;
use reference::vectors::every_kind;

const FIRST: Date = Date { year: 1980, month: 1, day: 1 };
const END: Date = Date { year: 2099, month: 12, day: 31 };

fn repeated(rule: Rule, first: Date, last: Date) -> Entry {
    Entry::Repeated { rule, first, last, times: Times { start: 0, end: 0, lead: 0 } }
}

fn in_month(rule: Rule, year: u16, month: u16, length: u16) -> Entry {
    repeated(rule, Date { year, month, day: 1 }, Date { year, month, day: length })
}

/// Both ways agree on every day there is; gives the days, and those of them to which it is moved.
fn all_days(entry: &Entry, choice: ShortMonth, facts: &[Facts]) -> [Vec<u16>; 2] {
    let mut showings = vec![];
    for facts in facts {
        let falls = pages::falls(entry, facts, choice);
        if falls != Falls::Not {
            showings.push(Showing { day: facts.calendar_day, moved: falls == Falls::Moved });
        }
    }
    assert_eq!(showings, occurrences(entry, choice), "{entry:?} {choice:?}");
    let moved = showings.iter().filter(|showing| showing.moved).map(|showing| showing.day).collect();
    [showings.iter().map(|showing| showing.day).collect(), moved]
}

/// Document 01, set P, as far as it is about records; its dates are in days.rs.
#[test]
fn set_p() {
    let facts = all_facts();
    let days = |entry, choice| all_days(&entry, choice, &facts);
    for choice in CHOICES {
        let second_tuesday = Rule::MonthlyByPosition { week: 2, weekday: 3 };
        assert_eq!(days(in_month(second_tuesday, 1993, 3, 31), choice), [vec![4_816], vec![]]);
        let fifth_monday = Rule::MonthlyByPosition { week: 5, weekday: 2 };
        assert_eq!(days(in_month(fifth_monday, 1993, 3, 31), choice), [vec![4_836], vec![]]);
    }
    let on_31 = in_month(Rule::MonthlyByDate { day: 31 }, 1993, 4, 30);
    assert_eq!(days(on_31, Skip), [[], []]);
    assert_eq!(days(on_31, Last), [[4_868], [4_868]]);
    let leap_day = in_month(Rule::Yearly { month: 2, day: 29 }, 1993, 2, 28);
    assert_eq!(days(leap_day, Skip), [[], []]);
    assert_eq!(days(leap_day, Last), [[4_807], [4_807]]);
    // The weekly record of every_kind: Tuesdays from 16 March 1993.
    let found = pages::next_occurrence(&every_kind(), 1, 4_822, Skip);
    assert_eq!(found, Ok(Search { day: Some(4_823), looked: 2 }));
}

/// Every rule there is, over all days. What last shows and skip does not is moved, and nothing else is.
#[test]
fn every_rule() {
    let facts = all_facts();
    for rule in rules() {
        let [(skip, none), (last, moved)] = CHOICES.map(|choice| {
            let [days, moved] = all_days(&repeated(rule, FIRST, END), choice, &facts);
            (days, moved)
        });
        match rule {
            Rule::MonthlyByDate { .. } => assert_eq!(last.len(), 1_440),
            Rule::Yearly { .. } => assert_eq!(last.len(), 120),
            _ => assert_eq!(skip, last),
        }
        assert!(skip.iter().all(|day| last.binary_search(day).is_ok()));
        let added: Vec<u16> = last.into_iter().filter(|day| skip.binary_search(day).is_err()).collect();
        assert_eq!((none, moved), (vec![], added), "{rule:?}");
    }
}

#[test]
fn random_records() {
    let mut rng = Rng::for_test("random_records");
    let facts = all_facts();
    let (mut days, mut moved) = ([0; 6], [0; 6]);
    for _ in 0..3_000 {
        let kind = rng.within(1..=6);
        let entry = any_entry(kind as u8, &mut rng);
        for choice in CHOICES {
            let [all, some] = all_days(&entry, choice, &facts);
            days[kind - 1] += all.len();
            moved[kind - 1] += some.len();
        }
    }
    println!("days by kind: {days:?}, moved: {moved:?}");
    assert!(days[..5].iter().all(|&days| days >= 500) && days[5] == 0);
    assert!(moved[2] >= 500 && moved[4] >= 100);
}

#[test]
fn random_searches() {
    let mut rng = Rng::for_test("random_searches");
    let (mut found, mut none) = (0, 0);
    for _ in 0..1_500 {
        let file = book_near(edge_day(&mut rng), 4, &mut rng).bytes;
        for (number, record) in book::records(&file).expect("a right book").iter().enumerate() {
            let choice = rng.pick(&CHOICES);
            let days: Vec<u16> =
                occurrences(&record.entry, choice).iter().map(|showing| showing.day).collect();
            let last = days.last().map_or(0, |day| (day + 1).min(LAST_DAY));
            for asked in [edge_day(&mut rng), rng.within(0..=LAST_DAY.into()) as u16, last] {
                let search = pages::next_occurrence(&file, number, asked, choice);
                let next = days.iter().find(|&&day| day >= asked).copied();
                let to = next.unwrap_or(LAST_DAY);
                let looked = u32::from(to) - u32::from(asked) + 1;
                assert_eq!(search, Ok(Search { day: next, looked }), "{record:?} {asked} {choice:?}");
                assert_eq!(soonest(&record.entry, asked, choice), next, "{record:?} {asked} {choice:?}");
                *if next.is_some() { &mut found } else { &mut none } += 1;
            }
        }
    }
    println!("found {found}, none {none}");
    assert!(found >= 3_000 && none >= 3_000);
}
