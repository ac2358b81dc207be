//! Every call that reads a Calendar file.

use super::same;
use apptbook::raw::calendar as raw;
use apptbook::{Appointment, Descriptor};
use reference::fuzz::{numbers, Tally};
use reference::rng::Rng;
use std::ptr;

pub fn round(tally: &mut Tally, file: &[u8], rng: &mut Rng) {
    let days = raw::read_calendar(file);
    same!(tally, "read_calendar", apptbook::read_calendar(file), days, answer => answer.count);
    let number = numbers::long(days.count, rng);
    let first = raw::calendar_day(file, number);
    same!(tally, "calendar_day", apptbook::calendar_day(file, number), first, answer => {
        Descriptor { day: answer.day, offset: answer.offset }
    });
    let day = if first.number == 0 { first.day } else { numbers::day(rng) };
    let count = raw::calendar_appointments(file, day);
    let by_safe = apptbook::calendar_appointments(file, day);
    same!(tally, "calendar_appointments", by_safe, count, answer => answer.count);
    let number = numbers::long(count.count, rng);
    let by_safe = apptbook::calendar_appointment(file, day, number);
    let by_raw = raw::calendar_appointment(file, day, number);
    let text = &file[by_raw.text_at..by_raw.text_at + by_raw.text_length];
    same!(tally, "calendar_appointment", by_safe, by_raw, answer => {
        Appointment { text, minute: answer.minute, flags: answer.flags }
    });
    assert!(by_safe.is_err() || ptr::eq(by_safe.unwrap().text, text), "the text's place");
}
