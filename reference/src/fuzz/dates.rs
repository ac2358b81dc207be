//! Day arithmetic with any numbers.

use super::look::Look;
use super::numbers;
use crate::days::{self, Date, Facts};
use crate::rng::Rng;
use apptbook::raw;
use apptbook::raw::days::FactsAnswer;

pub fn round(look: &mut Look, rng: &mut Rng) {
    let (year, month, day) = numbers::date(rng);
    let date = Date { year, month, day };
    look.at("month_length", raw::days::month_length(year, month), days::month_length(year, month));
    look.same("is_real_date", raw::days::is_real_date(year, month, day), days::is_real_date(date));
    look.at("day_of_date", raw::days::day_of_date(year, month, day), days::day_of_date(date));
    let day = numbers::short(rng);
    look.at("date_of_day", raw::days::date_of_day(day), days::date_of_day(day));
    look.at("weekday", raw::days::weekday(day), days::weekday(day));
    look.at("day_facts", raw::days::day_facts(day), days::day_facts(day));
    look.at("calendar_of_psion", raw::days::calendar_of_psion(day), days::calendar_of_psion(day));
    look.at("psion_of_calendar", raw::days::psion_of_calendar(day), days::psion_of_calendar(day));
    let facts = any_facts(rng);
    look.at("next_day", raw::days::next_day(facts), days::next_day(facts_of(facts)));
}

/// Of a day, of a day nearly, or of none.
fn any_facts(rng: &mut Rng) -> FactsAnswer {
    let mut facts = raw::days::day_facts(numbers::day(rng));
    (facts.number, facts.place) = (rng.u64() as u32, rng.u64() as usize);
    for field in [
        &mut facts.calendar_day,
        &mut facts.year,
        &mut facts.month,
        &mut facts.day,
        &mut facts.weekday,
        &mut facts.month_length,
    ] {
        if rng.one_in(8) {
            *field = numbers::short(rng);
        }
    }
    facts
}

fn facts_of(facts: FactsAnswer) -> Facts {
    let FactsAnswer { calendar_day, year, month, day, weekday, month_length, .. } = facts;
    Facts { calendar_day, date: Date { year, month, day }, weekday, month_length }
}
