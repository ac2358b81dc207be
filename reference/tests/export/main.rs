//! The proved export against the plain one: the answer, and every byte of the buffer and around it; and each
//! file read back by both readers and compared with the pages of both.

mod by_hand;
mod random;

use apptbook::raw::export as proved;
use apptbook::raw::pages::CountAnswer;
use apptbook::raw::{calendar as proved_calendar, pages as proved_pages};
use reference::answers::IntoAnswer;
use reference::books::Span;
use reference::pages::{self as plain_pages, ShortMonth};
use reference::refusal::{Refusal, NO_ROOM};
use reference::writings::{pattern, MARGIN};
use reference::{calendar as plain_calendar, export as plain};

fn count(count: usize) -> CountAnswer {
    CountAnswer { number: 0, place: 0, count }
}

fn before(room: usize) -> Vec<u8> {
    pattern(room)[MARGIN..MARGIN + room].to_vec()
}

/// Exports into a buffer of so many bytes, and gives the answer and those bytes. None around may change.
fn export(book: &[u8], span: Span, choice: ShortMonth, room: usize) -> (CountAnswer, Vec<u8>) {
    let mut bytes = pattern(room);
    let before = bytes.clone();
    let lent = MARGIN..MARGIN + room;
    let answer = proved::export(book, span.first, span.count, choice, &mut bytes[lent.clone()]);
    assert!(bytes[..lent.start] == before[..lent.start] && bytes[lent.end..] == before[lent.end..]);
    (answer, bytes[lent].to_vec())
}

/// The export is this file, in a buffer of any length.
fn is_exported(book: &[u8], span: Span, choice: ShortMonth, file: &[u8]) {
    for room in [file.len(), file.len() + 1, file.len() + 700] {
        let (answer, bytes) = export(book, span, choice, room);
        assert_eq!(answer, count(file.len()), "{span:?}");
        assert!(bytes[..file.len()] == *file, "{span:?}, {choice:?}");
        assert!(bytes[file.len()..] == before(room)[file.len()..], "bytes past the file changed");
    }
    for room in [0, 63, file.len() - 64, file.len() - 1] {
        is_refused(book, span, choice, room, NO_ROOM);
    }
}

fn is_refused(book: &[u8], span: Span, choice: ShortMonth, room: usize, refusal: Refusal) {
    let (answer, bytes) = export(book, span, choice, room);
    assert_eq!(answer, Err(refusal).answer(), "{span:?}, room {room}");
    assert!(bytes == before(room), "a refusal changed the buffer");
}

/// With so much room at most; gives the file where there is one.
fn compare(book: &[u8], span: Span, choice: ShortMonth, room: usize) -> Option<Vec<u8>> {
    let mut buffer = vec![0; room];
    match plain::export(book, span.first, span.count, choice, &mut buffer) {
        Ok(length) => {
            buffer.truncate(length);
            is_exported(book, span, choice, &buffer);
            Some(buffer)
        }
        Err(refusal) => {
            is_refused(book, span, choice, room, refusal);
            None
        }
    }
}

/// Demand 3, by the proved reader and the proved pages, and by the plain ones, on a day.
fn shows_the_page(book: &[u8], day: u16, choice: ShortMonth, file: &[u8]) {
    let page = plain_pages::page(book, day, choice).expect("a right book");
    let list = plain_calendar::day_appointments(file, day).expect("a right file");
    assert_eq!(list.len(), page.len(), "day {day}");
    assert_eq!(proved_pages::page_lines(book, day, choice), count(page.len()));
    assert_eq!(proved_calendar::calendar_appointments(file, day), count(page.len()));
    for (number, (line, appointment)) in page.into_iter().zip(list).enumerate() {
        assert_eq!((line.start, line.alarm), (appointment.minute, appointment.flags & 1 == 1));
        assert_eq!(book[line.text.clone()], file[appointment.text.clone()]);
        if number < 8 {
            assert_eq!(proved_pages::page_line(book, day, choice, number), Ok(line).answer());
            let answer = proved_calendar::calendar_appointment(file, day, number);
            assert_eq!(answer, Ok(appointment).answer());
        }
    }
}

fn shows_the_pages(book: &[u8], span: Span, choice: ShortMonth, file: &[u8], step: usize) {
    let days = plain_calendar::read_calendar(file);
    assert_eq!(proved_calendar::read_calendar(file), days.answer());
    for day in (span.first..span.first + span.count).step_by(step) {
        shows_the_page(book, day, choice, file);
    }
    let before = span.first.checked_sub(1);
    let after = Some(span.first + span.count).filter(|&day| day <= reference::days::LAST_DAY);
    for day in [before, after].into_iter().flatten() {
        assert_eq!(proved_calendar::calendar_appointments(file, day), count(0), "day {day}");
        assert_eq!(plain_calendar::calendar_appointments(file, day), Ok(0), "day {day}");
    }
}
