//! Day arithmetic, with any numbers.

use super::same;
use apptbook::raw::days::{self as raw, FactsAnswer};
use apptbook::{Date, Facts};
use reference::fuzz::{numbers, Tally};
use reference::rng::Rng;

fn facts(answer: FactsAnswer) -> Facts {
    Facts {
        calendar_day: answer.calendar_day,
        date: Date { year: answer.year, month: answer.month, day: answer.day },
        weekday: answer.weekday,
        month_length: answer.month_length,
    }
}

/// Of a day, of a day nearly, or of none.
fn any_facts(rng: &mut Rng) -> FactsAnswer {
    let mut any = raw::day_facts(numbers::day(rng));
    (any.number, any.place) = (rng.u64() as u32, rng.u64() as usize);
    let FactsAnswer { calendar_day, year, month, day, weekday, month_length, .. } = &mut any;
    for field in [calendar_day, year, month, day, weekday, month_length] {
        if rng.one_in(8) {
            *field = numbers::short(rng);
        }
    }
    any
}

pub fn round(tally: &mut Tally, rng: &mut Rng) {
    let (year, month, day) = numbers::date(rng);
    let date = Date { year, month, day };
    let by_raw = raw::month_length(year, month);
    same!(tally, "month_length", apptbook::month_length(year, month), by_raw, answer => answer.length);
    tally.add("is_real_date", 0);
    assert_eq!(apptbook::is_real_date(date), raw::is_real_date(year, month, day));
    let by_raw = raw::day_of_date(year, month, day);
    same!(tally, "day_of_date", apptbook::day_of_date(date), by_raw, answer => answer.day);
    let day = numbers::short(rng);
    same!(tally, "date_of_day", apptbook::date_of_day(day), raw::date_of_day(day), answer => {
        Date { year: answer.year, month: answer.month, day: answer.day }
    });
    same!(tally, "weekday", apptbook::weekday(day), raw::weekday(day), answer => answer.weekday);
    same!(tally, "day_facts", apptbook::day_facts(day), raw::day_facts(day), answer => facts(answer));
    let any = any_facts(rng);
    same!(tally, "next_day", apptbook::next_day(facts(any)), raw::next_day(any), answer => facts(answer));
    let by_raw = raw::calendar_of_psion(day);
    same!(tally, "calendar_of_psion", apptbook::calendar_of_psion(day), by_raw, answer => answer.day);
    let by_raw = raw::psion_of_calendar(day);
    same!(tally, "psion_of_calendar", apptbook::psion_of_calendar(day), by_raw, answer => answer.day);
}
