//! The proved day arithmetic against the plain one: every field of every answer, refusals too.

use apptbook::raw::days::{self as proved, DateAnswer, DayAnswer, FactsAnswer, WeekdayAnswer};
use reference::answers::IntoAnswer;
use reference::civil;
use reference::days::{self as plain, Date, Facts, LAST_DAY};
use reference::refusal::Refusal;
use reference::rng::Rng;

fn date(year: u16, month: u16, day: u16) -> Date {
    Date { year, month, day }
}

/// Set P of document 01, written out by hand: date, Calendar day, weekday.
#[test]
fn set_p() {
    let table = [
        ((1980, 1, 1), 0, 3),
        ((1980, 2, 29), 59, 6),
        ((1993, 3, 15), 4_822, 2),
        ((2000, 2, 29), 7_364, 3),
        ((2099, 12, 31), 43_829, 5),
    ];
    for ((year, month, day), number, weekday) in table {
        assert_eq!(plain::day_of_date(date(year, month, day)), Ok(number));
        assert_eq!(plain::date_of_day(number), Ok(date(year, month, day)));
        assert_eq!(plain::weekday(number), Ok(weekday));
        assert_eq!(proved::day_of_date(year, month, day), DayAnswer { number: 0, place: 0, day: number });
        assert_eq!(proved::date_of_day(number), DateAnswer { number: 0, place: 0, year, month, day });
        assert_eq!(proved::weekday(number), WeekdayAnswer { number: 0, place: 0, weekday });
        assert!(proved::is_real_date(year, month, day));
    }
    assert_eq!(plain::day_of_date(date(1993, 2, 29)), Err(Refusal { number: 11, place: 0 }));
    assert_eq!(proved::day_of_date(1993, 2, 29), DayAnswer { number: 11, place: 0, day: 0 });
    assert!(!proved::is_real_date(1993, 2, 29));
}

#[test]
fn every_day_number() {
    for day in 0..=u16::MAX {
        assert_eq!(proved::date_of_day(day), plain::date_of_day(day).answer(), "date of day {day}");
        assert_eq!(proved::weekday(day), plain::weekday(day).answer(), "weekday of day {day}");
        assert_eq!(proved::day_facts(day), plain::day_facts(day).answer(), "facts of day {day}");
        assert_eq!(proved::calendar_of_psion(day), plain::calendar_of_psion(day).answer(), "Psion day {day}");
        assert_eq!(
            proved::psion_of_calendar(day),
            plain::psion_of_calendar(day).answer(),
            "Calendar day {day}"
        );
    }
}

fn compare_date(date: Date) {
    let Date { year, month, day } = date;
    assert_eq!(proved::is_real_date(year, month, day), plain::is_real_date(date), "{date:?}");
    assert_eq!(proved::day_of_date(year, month, day), plain::day_of_date(date).answer(), "{date:?}");
}

#[test]
fn every_date_near_the_range() {
    for year in 1970..=2110 {
        for month in 0..=13 {
            for day in 0..=32 {
                compare_date(date(year, month, day));
            }
        }
    }
}

#[test]
fn random_dates() {
    let mut rng = Rng::for_test("random_dates");
    for _ in 0..200_000 {
        let year = if rng.below(2) == 0 { rng.u16() } else { 1980 + rng.below(120) as u16 };
        compare_date(date(year, rng.u16(), rng.u16()));
        compare_date(date(year, rng.below(14) as u16, rng.u16()));
        compare_date(date(year, rng.u16(), rng.below(33) as u16));
    }
}

#[test]
fn every_month_length() {
    for year in 0..=u16::MAX {
        for month in (0..=13).chain([255]) {
            let expected = plain::month_length(year, month).answer();
            assert_eq!(proved::month_length(year, month), expected, "month {month} of {year}");
        }
    }
}

#[test]
fn stepping_through_every_day() {
    let mut facts = proved::day_facts(0);
    for day in 0..LAST_DAY {
        assert_eq!(facts, plain::day_facts(day).answer(), "day {day}");
        facts = proved::next_day(facts);
    }
    assert_eq!(facts, plain::day_facts(LAST_DAY).answer());
    assert_eq!(proved::next_day(facts), FactsAnswer { number: 11, ..Default::default() });
}

/// `number` and `place` are what the facts come in with: they are to make no difference.
fn compare_step(facts: Facts, number: u32, place: usize) {
    let asked = FactsAnswer { number, place, ..Ok(facts).answer() };
    assert_eq!(proved::next_day(asked), plain::next_day(facts).answer(), "{asked:?}");
}

#[test]
fn stepping_at_every_month_end() {
    for year in 0..=2_101 {
        for month in 0..=600u16 {
            for day in [27, 28, 29] {
                let date = date(year, month, day);
                compare_step(Facts { calendar_day: 4_822, date, weekday: 7, month_length: 28 }, 0, 0);
            }
        }
    }
}

/// Mostly below `usual`, so that the facts are not all refused, and else anything.
fn some(rng: &mut Rng, usual: u64) -> u16 {
    if rng.below(8) == 0 {
        rng.u16()
    } else {
        rng.below(usual) as u16
    }
}

fn some_facts(rng: &mut Rng) -> Facts {
    Facts {
        calendar_day: some(rng, 43_835),
        date: date(some(rng, 2_103), some(rng, 14) as u16, some(rng, 33) as u16),
        weekday: some(rng, 9) as u16,
        month_length: some(rng, 33) as u16,
    }
}

#[test]
fn stepping_random_facts() {
    let mut rng = Rng::for_test("stepping_random_facts");
    for _ in 0..200_000 {
        let facts = some_facts(&mut rng);
        compare_step(facts, rng.u64() as u32, rng.u64() as usize);
    }
}

#[test]
fn the_plain_way_agrees_with_the_formulas() {
    for day in 0..=u16::MAX {
        assert_eq!(plain::date_of_day(day), civil::date_of_day(day), "date of day {day}");
        assert_eq!(plain::day_facts(day), civil::day_facts(day), "facts of day {day}");
        if let Ok(date) = plain::date_of_day(day) {
            assert_eq!(plain::day_of_date(date), Ok(day), "{date:?}");
        }
    }
    for year in 1970..=2110 {
        for month in 0..=13 {
            for day in 0..=32 {
                let date = date(year, month, day);
                assert_eq!(plain::day_of_date(date), civil::day_of_date(date), "{date:?}");
            }
        }
    }
}

#[test]
fn psion_counts_from_1970_to_the_end_of_2049() {
    let ten_years: u16 = (1970..1980).map(plain::year_length).sum();
    assert_eq!(plain::calendar_of_psion(ten_years), Ok(0));
    assert_eq!(plain::psion_of_calendar(0), Ok(ten_years));
    let last = plain::day_of_date(date(2049, 12, 31)).unwrap();
    assert_eq!(plain::psion_of_calendar(last), Ok(29_219));
    assert_eq!(plain::psion_of_calendar(last + 1), Err(Refusal { number: 11, place: 0 }));
}
