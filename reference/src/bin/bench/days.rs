//! Day arithmetic, over random days and dates.

use super::{hidden, kept, row, Cells, Row, Run, Runs};
use apptbook::raw::days as proved;
use reference::civil;
use reference::days::{self as plain, Date, FIRST_PSION_DAY, LAST_DAY, LAST_PSION_DAY};
use reference::halving;
use reference::rng::Rng;
use std::hint::black_box;

struct Days {
    days: Vec<u16>,
    dates: Vec<Date>,
    psion_days: Vec<u16>,
    /// The Calendar days of `psion_days`.
    same_days: Vec<u16>,
}

impl Days {
    fn random() -> Self {
        let mut rng = Rng::new(1);
        let mut random =
            |count: u16| -> Vec<u16> { (0..LAST_DAY).map(|_| rng.below(u64::from(count)) as u16).collect() };
        let days = random(LAST_DAY + 1);
        let dates = days.iter().map(|&day| civil::date_of_day(day).unwrap()).collect();
        let same_days = random(LAST_PSION_DAY - FIRST_PSION_DAY + 1);
        let psion_days = same_days.iter().map(|day| day + FIRST_PSION_DAY).collect();
        Days { days, dates, psion_days, same_days }
    }
}

fn over<I: Copy, O>(inputs: &'static [I], call: impl Fn(I) -> O + 'static) -> Option<Run> {
    Some(Box::new(move |count| {
        for &input in &inputs[..count] {
            black_box(&call(input));
        }
    }))
}

fn stepping<F: Copy + 'static>(first: F, next: impl Fn(F) -> F + 'static) -> Option<Run> {
    Some(Box::new(move |count| {
        black_box((0..count).fold(first, |facts, _| next(facts)));
    }))
}

fn day(call: &'static str, case: &'static str, runs: fn(&'static Days) -> Runs) -> Row {
    row(call, case, LAST_DAY.into(), move || Cells { runs: runs(kept(Days::random())), size: None })
}

pub fn rows() -> Vec<Row> {
    let mut rows = conversions();
    rows.extend(small_rows());
    rows
}

fn conversions() -> Vec<Row> {
    vec![
        day("(an empty call)", "", |d| [None, over(&d.days, hidden(|_| ())), None]),
        day("date_of_day", "random days", |d| {
            [
                over(&d.days, |day| proved::date_of_day(day)),
                over(&d.days, hidden(plain::date_of_day)),
                over(&d.days, hidden(civil::date_of_day)),
            ]
        }),
        day("date_of_day", "random days, both by halving", |d| {
            [over(&d.days, |day| proved::date_of_day(day)), over(&d.days, hidden(halving::date_of_day)), None]
        }),
        day("day_of_date", "random dates", |d| {
            [
                over(&d.dates, |date| proved::day_of_date(date.year, date.month, date.day)),
                over(&d.dates, hidden(plain::day_of_date)),
                over(&d.dates, hidden(civil::day_of_date)),
            ]
        }),
        day("day_facts", "random days", |d| {
            [
                over(&d.days, |day| proved::day_facts(day)),
                over(&d.days, hidden(plain::day_facts)),
                over(&d.days, hidden(civil::day_facts)),
            ]
        }),
        day("day_facts", "random days, both by halving", |d| {
            [over(&d.days, |day| proved::day_facts(day)), over(&d.days, hidden(halving::day_facts)), None]
        }),
    ]
}

fn small_rows() -> Vec<Row> {
    vec![
        day("next_day", "all days, one by one", |_| {
            let plain_next = hidden(plain::next_day);
            [
                stepping(proved::day_facts(0), |facts| proved::next_day(facts)),
                stepping(plain::day_facts(0), move |facts| plain_next(facts?)),
                None,
            ]
        }),
        day("weekday", "random days", |d| {
            [over(&d.days, |day| proved::weekday(day)), over(&d.days, hidden(plain::weekday)), None]
        }),
        day("is_real_date", "random dates", |d| {
            let by_proved = |date: Date| proved::is_real_date(date.year, date.month, date.day);
            [over(&d.dates, by_proved), over(&d.dates, hidden(plain::is_real_date)), None]
        }),
        day("month_length", "random months", |d| {
            let by_plain = hidden(|date: Date| plain::month_length(date.year, date.month));
            [
                over(&d.dates, |date| proved::month_length(date.year, date.month)),
                over(&d.dates, by_plain),
                None,
            ]
        }),
        day("calendar_of_psion", "random days", |d| {
            let by_plain = hidden(plain::calendar_of_psion);
            [over(&d.psion_days, |day| proved::calendar_of_psion(day)), over(&d.psion_days, by_plain), None]
        }),
        day("psion_of_calendar", "random days", |d| {
            let by_plain = hidden(plain::psion_of_calendar);
            [over(&d.same_days, |day| proved::psion_of_calendar(day)), over(&d.same_days, by_plain), None]
        }),
    ]
}
