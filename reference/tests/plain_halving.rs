//! The search by halving, looked at step by step, and its answers against the plain ones. The library is not called.

use reference::days::{self as plain, LAST_DAY};
use reference::halving::{self, Part, STARTS};
use reference::refusal::Refusal;

#[test]
fn the_table_of_month_starts() {
    assert_eq!(STARTS.len(), 1_440);
    let months = (1980..=2099).flat_map(|year| (1..=12).map(move |month| (year, month)));
    let mut start = 0;
    for ((year, month), entry) in months.zip(STARTS) {
        assert_eq!(entry, start, "month {month} of {year}");
        start += plain::month_length(year, month).unwrap();
    }
    assert_eq!(start - 1, 43_829);
}

/// From the start of its first month to the start behind its last one.
fn holds(part: Part, day: u16) -> bool {
    let start = |at: usize| if at < 1_440 { STARTS[at] } else { 43_830 };
    start(part.first) <= day && day < start(part.first + part.count)
}

fn lies_inside(inner: Part, outer: Part) -> bool {
    outer.first <= inner.first && inner.first + inner.count <= outer.first + outer.count
}

#[test]
fn eleven_halvings_leave_the_month_of_every_day() {
    for day in 0..=LAST_DAY {
        let mut part = Part::whole();
        assert_eq!(part, Part { first: 0, count: 1_440 });
        assert!(holds(part, day), "day {day} in the whole table");
        for halving in 1..=11 {
            let half = part.halve(day);
            assert!(lies_inside(half, part), "day {day}, halving {halving}: {half:?} of {part:?}");
            assert!(holds(half, day), "day {day}, halving {halving}: {half:?}");
            part = half;
        }
        let date = plain::date_of_day(day).unwrap();
        let month = usize::from(12 * (date.year - 1980) + date.month - 1);
        assert_eq!(part, Part { first: month, count: 1 }, "day {day}");
    }
}

/// Ten choices tell 1,024 of the 1,440 months apart at most. Here they leave two months for every day, and for 416
/// months the second of the two is the right one.
#[test]
fn ten_halvings_are_not_enough() {
    let after_ten = |day| (0..10).fold(Part::whole(), |part, _| part.halve(day));
    let two_left = (0..=LAST_DAY).filter(|&day| after_ten(day).count == 2);
    assert_eq!(two_left.count(), 43_830);
    let in_the_second = (0..1_440).filter(|&month| after_ten(STARTS[month]).first != month);
    assert_eq!(in_the_second.count(), 1_440 - 1_024);
}

#[test]
fn halving_agrees_with_the_plain_way() {
    for day in 0..=u16::MAX {
        assert_eq!(halving::date_of_day(day), plain::date_of_day(day), "date of day {day}");
        assert_eq!(halving::day_facts(day), plain::day_facts(day), "facts of day {day}");
    }
    let refused = Refusal { number: 11, place: 0 };
    assert_eq!(halving::date_of_day(43_830), Err(refused));
    assert_eq!(halving::day_facts(43_830), Err(refused));
}
