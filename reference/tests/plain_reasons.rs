//! The plain reasons alone: cases by hand, and a third way, by which the days are painted with one reason after the
//! other. What comes later in the paper's order is painted over, so that the reason to be given stays.

use reference::book;
use reference::books::any_entry;
use reference::civil::day_of_date;
use reference::days::{all_facts, Date, Facts, FIRST_YEAR, LAST_DAY, LAST_YEAR};
use reference::occurrences::{occurrences, rules};
use reference::pages::ShortMonth::{self, Skip};
use reference::pages::{self, CHOICES};
use reference::reasons::{reason, why, Reason, REASONS};
use reference::records::{Entry, Rule, Times};
use reference::refusal::Refusal;
use reference::rng::Rng;
use reference::vectors::single::Asked;
use reference::vectors::{every_kind, reasons, with_faults, CUTS, SEVERAL_FAULTS, WHOLE_CASE};
use std::ops::RangeInclusive;

fn day(year: u16, month: u16, day: u16) -> Option<u16> {
    day_of_date(Date { year, month, day }).ok()
}

/// The days of a month.
fn month(year: u16, month: u16) -> RangeInclusive<u16> {
    let last = (28..=31).rev().find_map(|last| day(year, month, last)).expect("a month");
    day(year, month, 1).expect("a month")..=last
}

/// A reason for each day there is.
struct Painted(Vec<Reason>);

impl Painted {
    fn paint(&mut self, days: impl IntoIterator<Item = u16>, reason: Reason) {
        days.into_iter().for_each(|day| self.0[usize::from(day)] = reason);
    }

    /// The months in which a day is wanted; those that lack it are too short under skip.
    fn paint_months(&mut self, months: impl Iterator<Item = (u16, u16)>, wanted: u16, choice: ShortMonth) {
        for (year, number) in months {
            self.paint(month(year, number), Reason::WrongDay);
            if choice == Skip && day(year, number, wanted).is_none() {
                self.paint([*month(year, number).end()], Reason::MonthTooShort);
            }
        }
    }

    fn paint_rule(&mut self, rule: Rule, choice: ShortMonth) {
        let years = FIRST_YEAR..=LAST_YEAR;
        match rule {
            Rule::Weekly { .. } => self.paint(0..=LAST_DAY, Reason::WrongWeekday),
            Rule::MonthlyByPosition { weekday, .. } => {
                // Day 0 is a Tuesday, 3.
                self.paint(0..=LAST_DAY, Reason::WrongWeekday);
                self.paint(((weekday + 4) % 7..=LAST_DAY).step_by(7), Reason::WrongWeek);
            }
            Rule::MonthlyByDate { day } => {
                let months = years.flat_map(|year| (1..=12).map(move |month| (year, month)));
                self.paint_months(months, day, choice);
            }
            Rule::Yearly { month, day } => {
                self.paint(0..=LAST_DAY, Reason::WrongMonth);
                self.paint_months(years.map(|year| (year, month)), day, choice);
            }
        }
    }
}

fn painted(entry: &Entry, choice: ShortMonth) -> Vec<Reason> {
    let mut painted = Painted(vec![Reason::IsToDo; usize::from(LAST_DAY) + 1]);
    let span = match *entry {
        Entry::Dated { date, .. } => Some((date, date)),
        Entry::Repeated { rule, first, last, .. } => {
            painted.paint_rule(rule, choice);
            Some((first, last))
        }
        Entry::ToDo { .. } => None,
    };
    if let Some((first, last)) = span {
        let [first, last] = [first, last].map(|date| day_of_date(date).expect("a real date"));
        painted.paint(last + 1..=LAST_DAY, Reason::AfterEnd);
        painted.paint(0..first, Reason::BeforeStart);
    }
    for showing in occurrences(entry, choice) {
        painted.paint([showing.day], if showing.moved { Reason::Moved } else { Reason::OwnDay });
    }
    painted.0
}

/// Both ways agree on these days, under both choices; counts the reasons in the paper's order.
fn compare(entry: &Entry, days: &[Facts], counts: &mut [usize; 10]) {
    for choice in CHOICES {
        let painted = painted(entry, choice);
        for facts in days {
            let given = reason(entry, facts, choice);
            let expected = painted[usize::from(facts.calendar_day)];
            assert_eq!(given, expected, "{facts:?} {choice:?} {entry:?}");
            counts[REASONS.iter().position(|&reason| reason == given).expect("a reason")] += 1;
        }
    }
}

#[test]
fn reasons_by_hand() {
    for Asked { book, day, answers } in reasons::all() {
        for (choice, expected) in CHOICES.into_iter().zip(answers) {
            let entry = book::record(&book, 0).expect("a record").entry;
            assert_eq!(why(&book, 0, day, choice), Ok(expected), "{day} {choice:?} {entry:?}");
            assert_eq!(painted(&entry, choice)[usize::from(day)], expected, "{day} {choice:?} {entry:?}");
            let shown = pages::falls_on(&book, 0, day, choice).expect("a record").is_shown();
            assert_eq!(matches!(expected, Reason::OwnDay | Reason::Moved), shown, "{day} {choice:?}");
        }
    }
}

/// The book's own, then 11, then 10.
#[test]
fn refusals_in_order() {
    let refused = |file: &[u8], record, day| why(file, record, day, Skip).map_err(|refusal| refusal.number);
    assert_eq!(refused(&WHOLE_CASE, 0, 4_822), Ok(Reason::OwnDay));
    for (record, day, number) in [(1, 0, 10), (usize::MAX, 43_829, 10), (0, 43_830, 11), (1, 65_535, 11)] {
        assert_eq!(refused(&WHOLE_CASE, record, day), Err(number));
    }
    let bad = |file: &[u8], number, place| {
        for (record, day) in [(0, 4_822), (9, 4_822), (0, 43_830), (usize::MAX, 65_535)] {
            assert_eq!(why(file, record, day, Skip), Err(Refusal { number, place }));
        }
    };
    CUTS.iter().for_each(|&(length, number, place)| bad(&every_kind()[..length], number, place));
    for &(changes, length, number, place) in SEVERAL_FAULTS {
        bad(&with_faults(changes, length), number, place);
    }
}

/// On each day of years of both lengths, the first and the last one among them.
#[test]
fn every_rule() {
    const YEARS: [u16; 6] = [1980, 1992, 1993, 2000, 2096, 2099];
    let mut facts = all_facts();
    let [first, last] = [0, usize::from(LAST_DAY)].map(|day| facts[day].date);
    facts.retain(|facts| YEARS.contains(&facts.date.year));
    let mut counts = [0; 10];
    for rule in rules() {
        let entry = Entry::Repeated { rule, first, last, times: Times { start: 0, end: 0, lead: 0 } };
        compare(&entry, &facts, &mut counts);
    }
    println!("reasons: {counts:?}");
    let [own, moved, to_do, before, after, month, short, ..] = counts;
    assert_eq!([to_do, before, after], [0; 3]);
    // Each day is the own day of one rule of each of the four kinds.
    assert_eq!(own, 4 * 2 * facts.len());
    assert!(moved == short && moved >= 38 && month >= 1_000_000, "{counts:?}");
}

/// On every day there is.
#[test]
fn random_records() {
    let mut rng = Rng::for_test("random_records");
    let (facts, mut counts) = (all_facts(), [0; 10]);
    for kind in (1..=6).cycle().take(240) {
        let entry = any_entry(kind, &mut rng);
        compare(&entry, &facts, &mut counts);
    }
    println!("reasons: {counts:?}");
    assert!(counts.iter().all(|&count| count >= 100), "{counts:?}");
}
