//! Every rule that a record can have, on every day of some years, under both choices. How often each reason comes is
//! known beforehand.

use super::{compare_day, Counts};
use apptbook::raw::reasons::{
    AFTER_LAST_DAY, BEFORE_START, IS_TO_DO, MONTH_TOO_SHORT, MOVED, OWN_DAY, WRONG_DAY, WRONG_MONTH,
    WRONG_WEEK, WRONG_WEEKDAY,
};
use reference::civil::day_of_date;
use reference::days::{is_real_date, year_length, Date};
use reference::vectors::single::{book, dated, monthly, position, to_do, weekly, yearly, Dates, ALL};

/// Four with 366 days and two with 365, the first and the last one among them.
const YEARS: [u16; 6] = [1980, 1992, 1993, 2000, 2096, 2099];
const DAYS: usize = 4 * 366 + 2 * 365;

/// The reasons of these records on each day of these years.
fn counted(years: &[u16], records: impl IntoIterator<Item = Vec<u8>>) -> Counts {
    let mut counts = [0; 11];
    for file in records.into_iter().map(|record| book(&record)) {
        for &year in years {
            let first = day_of_date(Date { year, month: 1, day: 1 }).expect("a year");
            for day in first..first + year_length(year) {
                compare_day(&file, 0..1, day, &mut counts);
            }
        }
    }
    counts
}

fn expected(reasons: &[(u16, usize)]) -> Counts {
    let mut counts = [0; 11];
    reasons.iter().for_each(|&(reason, count)| counts[usize::from(reason)] = count);
    counts
}

fn all_weekly(dates: Dates) -> impl Iterator<Item = Vec<u8>> {
    (1..=7).map(move |weekday| weekly(weekday, dates))
}

fn all_positions(dates: Dates) -> impl Iterator<Item = Vec<u8>> {
    (1..=35).map(move |number| position((number - 1) / 7 + 1, (number - 1) % 7 + 1, dates))
}

fn all_monthly(dates: Dates) -> impl Iterator<Item = Vec<u8>> {
    (1..=31).map(move |day| monthly(day, dates))
}

/// Each day has one weekday, and the six others are wrong.
#[test]
fn every_weekday() {
    let given = counted(&YEARS, all_weekly(ALL));
    assert_eq!(given, expected(&[(OWN_DAY, 2 * DAYS), (WRONG_WEEKDAY, 6 * 2 * DAYS)]));
}

/// Of the right weekday, four of five weeks are wrong.
#[test]
fn every_position() {
    let given = counted(&YEARS, all_positions(ALL));
    let reasons = [(OWN_DAY, 2 * DAYS), (WRONG_WEEKDAY, 30 * 2 * DAYS), (WRONG_WEEK, 4 * 2 * DAYS)];
    assert_eq!(given, expected(&reasons));
}

/// Missing are the 31st four times a year, 30 and 31 in February, and in two of the years 29.
#[test]
fn every_day_of_the_month() {
    const MISSING: usize = 6 * (4 + 2) + 2;
    let given = counted(&YEARS, all_monthly(ALL));
    let wrong = 30 * 2 * DAYS - 2 * MISSING;
    let reasons = [(OWN_DAY, 2 * DAYS), (MOVED, MISSING), (MONTH_TOO_SHORT, MISSING), (WRONG_DAY, wrong)];
    assert_eq!(given, expected(&reasons));
}

/// 29 February 1993 is missing. A month with n days in a leap year is the right one for n of the 366 records.
#[test]
fn every_day_of_the_year() {
    let months = (1..=12).flat_map(|month| (1..=31).map(move |day| Date { year: 1992, month, day }));
    let dates = months.filter(|&date| is_real_date(date));
    let given = counted(&[1992, 1993], dates.map(|date| yearly(date.month as u8, date.day as u8, ALL)));
    let right = 2 * (7 * 31 * 31 + 4 * 30 * 30) + 29 * 29 + 28 * 29;
    let all = 366 + 365;
    let wrong = [(WRONG_MONTH, 2 * (366 * all - right)), (WRONG_DAY, 2 * (right - all) - 2)];
    let shown = [(OWN_DAY, 2 * all), (MOVED, 1), (MONTH_TOO_SHORT, 1)];
    assert_eq!(given, expected(&[&shown[..], &wrong].concat()));
}

/// From the 60th day of 1992 to the 59th of 1993: 59 days come before it, and 306 after it.
#[test]
fn a_span() {
    const SPAN: Dates = [[92, 2, 29], [93, 2, 28]];
    let some_yearly = [[1, 1], [2, 28], [2, 29], [3, 1], [3, 31], [4, 30], [12, 31]]
        .map(|[month, day]| yearly(month, day, SPAN));
    let all: Vec<Vec<u8>> =
        all_weekly(SPAN).chain(all_positions(SPAN)).chain(all_monthly(SPAN)).chain(some_yearly).collect();
    let records = all.len();
    let given = counted(&[1992, 1993], all);
    assert_eq!(given[usize::from(BEFORE_START)], 2 * 59 * records);
    assert_eq!(given[usize::from(AFTER_LAST_DAY)], 2 * 306 * records);
    // Moved: 30 and 31 in February 1992; the 31st in April, June, September and November; 29, 30 and 31 in February
    // 1993, and there the yearly record of 29 February.
    for reason in [MOVED, MONTH_TOO_SHORT] {
        assert_eq!(given[usize::from(reason)], 2 + 4 + 3 + 1);
    }
    // Each of its 366 days has a record of each of three kinds, and each yearly record has one of its days.
    assert_eq!(given[usize::from(OWN_DAY)], 2 * (3 * 366 + 7));
}

/// Dated records on 29 February 1992, on day 0 and on day 43,829, and to-dos.
#[test]
fn without_rules() {
    let dates = [[92, 2, 29], ALL[0], ALL[1]];
    let given = counted(&YEARS, dates.map(dated));
    let before = (366 + 59) + (DAYS - 1);
    let after = (DAYS - 366 - 60) + (DAYS - 1);
    assert_eq!(given, expected(&[(OWN_DAY, 2 * 3), (BEFORE_START, 2 * before), (AFTER_LAST_DAY, 2 * after)]));
    assert_eq!(counted(&YEARS, dates.map(to_do)), expected(&[(IS_TO_DO, 3 * 2 * DAYS)]));
}
