//! The proved Calendar reader against the plain one: every field of every answer, refusals too.

mod by_hand;
mod random;

use apptbook::raw::calendar as proved;
use apptbook::raw::pages::CountAnswer;
use reference::answers::IntoAnswer;
use reference::calendar as plain;
use reference::days::LAST_DAY;
use reference::refusal::{Refusal, NO_SUCH_NUMBER, OUT_OF_RANGE};

fn count(count: usize) -> CountAnswer {
    CountAnswer { number: 0, place: 0, count }
}

/// Every call is to be refused in this way, whatever is asked for.
fn is_refused_file(file: &[u8], refusal: Refusal) {
    assert_eq!(proved::read_calendar(file), Err(refusal).answer());
    for number in [0, 1, usize::MAX] {
        assert_eq!(proved::calendar_day(file, number), Err(refusal).answer());
        for day in [0, 4_822, LAST_DAY, LAST_DAY + 1, u16::MAX] {
            assert_eq!(proved::calendar_appointments(file, day), Err(refusal).answer());
            assert_eq!(proved::calendar_appointment(file, day, number), Err(refusal).answer());
        }
    }
}

fn compare(file: &[u8], name: &str) -> u32 {
    compare_some(file, name, |_| true)
}

/// Compares all answers about the file, about such days of it and about the last one, and gives the number.
/// The file is lent in the midst of bytes that would go on with it, and none may be changed.
fn compare_some(file: &[u8], name: &str, asked: impl Fn(usize) -> bool) -> u32 {
    let lent = [&[0xB5], file, &[5, 0, 0, 0, 0, 0, 0, 0]].concat();
    let part = &lent[1..=file.len()];
    let show = || if file.len() < 700 { format!("{name}: {file:?}") } else { name.to_string() };
    let read = plain::read_calendar(file);
    assert_eq!(proved::read_calendar(part), read.answer(), "{}", show());
    match read {
        Err(refusal) => is_refused_file(part, refusal),
        Ok(days) => {
            for number in (0..days).filter(|&number| asked(number) || number + 1 == days) {
                let descriptor = plain::calendar_day(file, number).expect("a day");
                assert_eq!(proved::calendar_day(part, number), Ok(descriptor).answer(), "{}", show());
                compare_day(part, descriptor.day, &show);
                compare_day(part, (descriptor.day + 1).min(LAST_DAY), &show);
            }
            compare_beyond(part, days);
        }
    }
    assert!(lent == [&[0xB5], file, &[5, 0, 0, 0, 0, 0, 0, 0]].concat(), "changed: {}", show());
    read.map_or_else(|refusal| refusal.number, |_| 0)
}

/// All appointments of a day, or the first and the last of many.
fn compare_day(file: &[u8], day: u16, show: &impl Fn() -> String) {
    let list = plain::day_appointments(file, day).expect("a right file");
    assert_eq!(proved::calendar_appointments(file, day), count(list.len()), "day {day}, {}", show());
    for (number, appointment) in list.iter().enumerate() {
        if number < 20 || number + 2 >= list.len() {
            let answer = proved::calendar_appointment(file, day, number);
            assert_eq!(answer, Ok(appointment.clone()).answer(), "day {day}, {number}, {}", show());
            assert!(answer.text_at + answer.text_length <= file.len());
        }
    }
    for number in [list.len(), usize::MAX] {
        assert_eq!(proved::calendar_appointment(file, day, number), Err(NO_SUCH_NUMBER).answer());
    }
}

/// What a right file does not have.
fn compare_beyond(file: &[u8], days: usize) {
    for number in [days, days + 1, usize::MAX] {
        assert_eq!(proved::calendar_day(file, number), Err(NO_SUCH_NUMBER).answer());
    }
    for day in [LAST_DAY + 1, 50_000, u16::MAX] {
        assert_eq!(proved::calendar_appointments(file, day), Err(OUT_OF_RANGE).answer());
        assert_eq!(proved::calendar_appointment(file, day, 0), Err(OUT_OF_RANGE).answer());
        assert_eq!(proved::calendar_appointment(file, day, usize::MAX), Err(OUT_OF_RANGE).answer());
    }
}
