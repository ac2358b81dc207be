//! Books made at random, right and damaged ones, small and of full size.

use super::{compare_day, is_refused, Counts};
use apptbook::raw::pages;
use apptbook::raw::reasons::{self as proved, MOVED, OWN_DAY};
use reference::book;
use reference::books::{book_near, edge_day, small, Cases, File};
use reference::days::LAST_DAY;
use reference::fuzz::numbers;
use reference::pages::CHOICES;
use reference::refusal::{Refusal, NO_SUCH_NUMBER, OUT_OF_RANGE};
use reference::rng::Rng;
use reference::vectors::single::{self, dated, monthly, position, to_do, weekly, yearly, ALL};

/// Every record on the day and on those beside it.
#[test]
fn books_near_a_day() {
    let mut rng = Rng::for_test("books_near_a_day");
    let mut counts: Counts = [0; 11];
    for _ in 0..1_000 {
        let day = edge_day(&mut rng);
        let records = rng.within(0..=16);
        let file = book_near(day, records, &mut rng).bytes;
        for day in [day, day.saturating_sub(1), (day + 1).min(LAST_DAY)] {
            compare_day(&file, 0..records, day, &mut counts);
        }
        for record in [records, records + 1, usize::MAX - records] {
            is_refused(&file, record, day, NO_SUCH_NUMBER);
            is_refused(&file, record, day.saturating_add(43_830), OUT_OF_RANGE);
        }
    }
    println!("reasons: {counts:?}");
    assert!(counts[1..].iter().all(|&count| count >= 50), "{counts:?}");
}

/// Right and damaged ones, and any day and number, also those that are none.
#[test]
fn random_books() {
    let mut rng = Rng::for_test("random_books");
    let (mut numbers, mut counts): ([usize; 12], Counts) = ([0; 12], [0; 11]);
    for case in Cases::new(Rng::new(rng.u64())).take(10_000) {
        let file = &case.file;
        let day = if rng.one_in(8) { rng.u16() } else { edge_day(&mut rng) };
        let judged = book::read_book(file);
        let record = numbers::long(judged.map_or(3, |book| book.records), &mut rng);
        let refusal = match judged {
            Err(refusal) => Some(refusal),
            Ok(_) if day > LAST_DAY => Some(OUT_OF_RANGE),
            Ok(book) => (record >= book.records).then_some(NO_SUCH_NUMBER),
        };
        numbers[refusal.map_or(0, |refusal| refusal.number as usize)] += 1;
        match refusal {
            Some(refusal) => is_refused(file, record, day, refusal),
            None => compare_day(file, record..=record, day, &mut counts),
        }
    }
    println!("books by refusal number: {numbers:?}, reasons: {counts:?}");
    assert!(numbers.iter().all(|&count| count >= 50), "{numbers:?}");
}

/// A book of 65,535 bytes: some of its records, and the last one.
#[test]
fn the_longest_book() {
    let mut rng = Rng::for_test("the_longest_book");
    let mut counts: Counts = [0; 11];
    let file = File::full(65_535, || small(rng.within(1..=6) as u8, &mut rng)).bytes;
    let records = book::read_book(&file).expect("a right book").records;
    for day in [4_868, 7_364, 30_000] {
        compare_day(&file, (0..records).step_by(23).chain([records - 1]), day, &mut counts);
        is_refused(&file, records, day, NO_SUCH_NUMBER);
    }
    is_refused(&[&file[..], &[0x1A]].concat(), 0, 4_868, Refusal { number: 1, place: 0 });
    println!("reasons: {counts:?}");
    let [_, _, _, to_do, before, after, ..] = counts;
    assert!([to_do, before, after].iter().all(|&count| count >= 50), "{counts:?}");
}

/// As many records as a book can have, all alike: they are all on a page, or none is.
#[test]
fn the_most_records() {
    let date = [93, 4, 30];
    for (record, records) in [
        (dated(date), 4_368),
        (weekly(6, ALL), 3_448),
        (monthly(31, ALL), 3_448),
        (position(5, 6, ALL), 3_276),
        (yearly(2, 29, ALL), 3_276),
        (to_do(date), 4_680),
    ] {
        let file = single::book(&record.repeat(records));
        assert!(file.len() <= 65_535 && file.len() + record.len() > 65_535);
        for (day, choice) in
            [4_807, 4_868, 4_869].into_iter().flat_map(|day| CHOICES.map(|choice| (day, choice)))
        {
            let reason = proved::why(&single::book(&record), 0, day, choice);
            for number in [0, 1, records / 2, records - 1] {
                assert_eq!(proved::why(&file, number, day, choice), reason, "record {number}, day {day}");
            }
            let lines = if [OWN_DAY, MOVED].contains(&reason.reason) { records } else { 0 };
            assert_eq!(pages::page_lines(&file, day, choice).count, lines, "day {day}, {choice:?}");
        }
        is_refused(&file, records, 4_868, NO_SUCH_NUMBER);
        is_refused(&file, records, 43_830, OUT_OF_RANGE);
    }
}
