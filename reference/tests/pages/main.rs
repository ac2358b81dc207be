//! The proved day pages against the plain ones: every field of every answer, refusals too, and every byte of
//! the buffer and around it after a page is printed.

mod by_hand;
mod moved;
mod random;

use apptbook::raw::pages::{self as proved, CountAnswer, OccurrenceAnswer, FALLS_MOVED, FALLS_ON_ITS_DAY};
use reference::answers::IntoAnswer;
use reference::pages::{self as plain, Line, ShortMonth, CHOICES};
use reference::printed;
use reference::refusal::{Refusal, NO_ROOM, NO_SUCH_NUMBER};
use reference::writings::{pattern, MARGIN};

fn count(count: usize) -> CountAnswer {
    CountAnswer { number: 0, place: 0, count }
}

fn found(day: u16, looked: u32) -> OccurrenceAnswer {
    OccurrenceAnswer { number: 0, place: 0, looked, day, found: true }
}

fn none(looked: u32) -> OccurrenceAnswer {
    OccurrenceAnswer { number: 0, place: 0, looked, day: 0, found: false }
}

/// Prints into a buffer of so many bytes, and gives the answer and those bytes. None around may change.
fn print(file: &[u8], day: u16, choice: ShortMonth, room: usize) -> (CountAnswer, Vec<u8>) {
    let mut bytes = pattern(room);
    let lent = MARGIN..MARGIN + room;
    let answer = proved::print_page(file, day, choice, &mut bytes[lent.clone()]);
    let before = pattern(room);
    assert!(bytes[..lent.start] == before[..lent.start] && bytes[lent.end..] == before[lent.end..]);
    (answer, bytes[lent].to_vec())
}

fn before(room: usize) -> Vec<u8> {
    pattern(room)[MARGIN..MARGIN + room].to_vec()
}

/// The printed page is this one, in a buffer of any length.
fn prints(file: &[u8], day: u16, choice: ShortMonth, page: &[u8]) {
    assert_eq!(proved::page_length(file, day, choice), count(page.len()));
    for room in [page.len(), page.len() + 1, page.len() + 700] {
        let (answer, bytes) = print(file, day, choice, room);
        assert_eq!(answer, count(page.len()));
        assert!(bytes[..page.len()] == *page, "{:?} is not {page:?}", &bytes[..page.len()]);
        assert!(bytes[page.len()..] == before(room)[page.len()..], "bytes past the page changed");
    }
    for room in [page.len() - 1, page.len() / 2, 0] {
        let (answer, bytes) = print(file, day, choice, room);
        assert_eq!(answer, Err(NO_ROOM).answer());
        assert!(bytes == before(room), "a refusal changed the buffer");
    }
}

/// Calls with this number and this day are to be refused in this way.
fn is_refused(file: &[u8], number: usize, day: u16, refusal: Refusal) {
    for choice in CHOICES {
        assert_eq!(proved::falls_on(file, number, day, choice), Err(refusal).answer());
        assert_eq!(proved::next_occurrence(file, number, day, choice), Err(refusal).answer());
        assert_eq!(proved::page_line(file, day, choice, number), Err(refusal).answer());
    }
}

/// All calls with this day are to be refused in this way, whatever the number and the room.
fn is_refused_day(file: &[u8], day: u16, refusal: Refusal) {
    for number in [0, 1, usize::MAX] {
        is_refused(file, number, day, refusal);
    }
    for choice in CHOICES {
        assert_eq!(proved::page_lines(file, day, choice), Err(refusal).answer());
        assert_eq!(proved::page_length(file, day, choice), Err(refusal).answer());
        for room in [0, 100] {
            assert_eq!(print(file, day, choice, room), (Err(refusal).answer(), before(room)));
        }
    }
}

/// Everything about the page of a day, whose lines it gives. `asked`: which of them.
fn compare_page(file: &[u8], day: u16, choice: ShortMonth, asked: impl Fn(usize) -> bool) -> Vec<Line> {
    let lines = plain::page(file, day, choice).expect("a right book and day");
    assert_eq!(proved::page_lines(file, day, choice), count(lines.len()));
    for (number, line) in lines.iter().enumerate() {
        if asked(number) || number + 1 == lines.len() {
            let answer = proved::page_line(file, day, choice, number);
            assert_eq!(answer, Ok(line.clone()).answer(), "line {number}");
            let falls = if answer.moved { FALLS_MOVED } else { FALLS_ON_ITS_DAY };
            assert_eq!(proved::falls_on(file, line.record, day, choice).falls, falls, "line {number}");
        }
    }
    for number in [lines.len(), lines.len() + 1, usize::MAX] {
        assert_eq!(proved::page_line(file, day, choice, number), Err(NO_SUCH_NUMBER).answer());
    }
    prints(file, day, choice, &printed::printed_page(file, day, choice).expect("a right book and day"));
    lines
}

/// Everything about a record and a day.
fn compare_record(file: &[u8], record: usize, day: u16, choice: ShortMonth) {
    let show = || format!("record {record}, day {day}, {choice:?}, of {file:?}");
    let falls = plain::falls_on(file, record, day, choice);
    assert_eq!(proved::falls_on(file, record, day, choice), falls.answer(), "{}", show());
    let next = plain::next_occurrence(file, record, day, choice);
    assert_eq!(proved::next_occurrence(file, record, day, choice), next.answer(), "{}", show());
}
