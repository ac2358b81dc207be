//! Books made at random, right and damaged ones, small and of full size.

use super::{before, compare_page, compare_record, found, is_refused_day, none, print};
use apptbook::raw::pages as proved;
use reference::answers::IntoAnswer;
use reference::book;
use reference::books::{book_near, edge_day, near, small, Cases, Draft, Field, File};
use reference::days::LAST_DAY;
use reference::occurrences::occurrences;
use reference::pages::ShortMonth::{Last, Skip};
use reference::pages::{self as plain, CHOICES};
use reference::printed;
use reference::refusal::{Refusal, OUT_OF_RANGE};
use reference::rng::Rng;

/// Pages of the day and of those beside it, and each record.
#[test]
fn books_near_a_day() {
    let mut rng = Rng::for_test("books_near_a_day");
    let (mut counts, mut moved) = ([0; 6], 0);
    for _ in 0..3_000 {
        let day = edge_day(&mut rng);
        let records = rng.within(0..=16);
        let file = book_near(day, records, &mut rng).bytes;
        let lent = [&[0xFF], &file[..], &[6, 11, 0, 0, 1, 93, 3, 15]].concat();
        let part = &lent[1..=file.len()];
        for day in [day, day.saturating_sub(1), (day + 1).min(LAST_DAY)] {
            for choice in CHOICES {
                let lines = compare_page(part, day, choice, |_| true);
                counts[lines.len().min(5)] += 1;
                moved += lines.iter().filter(|line| line.moved).count();
            }
        }
        for record in 0..=records {
            compare_record(part, record, day, rng.pick(&CHOICES));
        }
        assert!(lent == [&[0xFF], &file[..], &[6, 11, 0, 0, 1, 93, 3, 15]].concat(), "changed");
    }
    println!("pages by number of lines, up to 5 and more: {counts:?}; moved lines: {moved}");
    assert!(counts.iter().all(|&count| count >= 500) && moved >= 250, "{counts:?}, {moved}");
}

/// Right and damaged ones, and any day, also those that are none.
#[test]
fn random_books() {
    let mut rng = Rng::for_test("random_books");
    let mut numbers = [0; 10];
    for case in Cases::new(Rng::new(rng.u64())).take(20_000) {
        let file = &case.file;
        let day = if rng.one_in(8) { rng.u16() } else { edge_day(&mut rng) };
        match book::read_book(file) {
            Err(refusal) => {
                numbers[refusal.number as usize] += 1;
                is_refused_day(file, day, refusal);
            }
            Ok(_) if day > LAST_DAY => is_refused_day(file, day, OUT_OF_RANGE),
            Ok(book) => {
                numbers[0] += 1;
                let record = rng.within(0..=book.records);
                for choice in CHOICES {
                    compare_page(file, day, choice, |_| true);
                    compare_record(file, record, day, choice);
                }
            }
        }
    }
    println!("books by refusal number: {numbers:?}");
    assert!(numbers.iter().all(|&count| count >= 100), "{numbers:?}");
}

/// Of each kind of record, every day of the years about its first and last date.
#[test]
fn every_day_of_some_years() {
    let mut rng = Rng::for_test("every_day_of_some_years");
    for _ in 0..60 {
        for kind in 1..=6 {
            let day = edge_day(&mut rng);
            let file = File::random(&[near(day, kind, &mut rng)], &mut rng).bytes;
            let from = day.saturating_sub(400);
            for day in from..=(day + 400).min(LAST_DAY) {
                for choice in CHOICES {
                    let falls = plain::falls_on(&file, 0, day, choice);
                    assert_eq!(proved::falls_on(&file, 0, day, choice), falls.answer(), "{day} {file:?}");
                    let lines = plain::page_lines(&file, day, choice);
                    assert_eq!(proved::page_lines(&file, day, choice), lines.answer(), "{day} {file:?}");
                }
            }
        }
    }
}

/// From every occurrence to the next, and past the last one; the days are found in the third way.
#[test]
fn searches_go_from_day_to_day() {
    let mut rng = Rng::for_test("searches_go_from_day_to_day");
    for kind in (1..=6).cycle().take(240) {
        let file = File::random(&[Draft::random(kind, &mut rng)], &mut rng).bytes;
        let entry = book::record(&file, 0).expect("a record").entry;
        for choice in CHOICES {
            let days: Vec<u16> = occurrences(&entry, choice).iter().map(|showing| showing.day).collect();
            let mut asked = 0;
            for &day in days.iter().take(300) {
                let expected = found(day, u32::from(day - asked) + 1);
                assert_eq!(proved::next_occurrence(&file, 0, asked, choice), expected, "{file:?}");
                asked = day + 1;
            }
            let after = days.last().map_or(0, |day| day + 1);
            if after <= LAST_DAY {
                let expected = none(43_830 - u32::from(after));
                assert_eq!(proved::next_occurrence(&file, 0, after, choice), expected, "{file:?}");
            }
        }
    }
}

/// All records on one day, at random minutes, at few minutes and at one.
#[test]
fn the_longest_books() {
    let mut rng = Rng::for_test("the_longest_books");
    for kind in 1..=6 {
        for minutes in [1, 5, 1_440] {
            let file = File::full(65_535, || on_a_day(kind, minutes, &mut rng)).bytes;
            let lines = compare_page(&file, 4_822, Skip, |line| line % 41 == 0).len();
            assert_eq!(lines >= 2_500, kind != 6, "{lines} lines");
            compare_page(&file, 4_823, Last, |_| true);
            is_refused_day(&[&file[..], &[0]].concat(), 4_822, Refusal { number: 1, place: 0 });
        }
    }
    let any = File::full(65_535, || Draft::random(rng.within(1..=6) as u8, &mut rng)).bytes;
    for _ in 0..100 {
        compare_page(&any, edge_day(&mut rng), rng.pick(&CHOICES), |_| true);
    }
}

/// All of them on one day: up to 64 records are ordered in a smaller space, and more in a larger one.
#[test]
fn every_number_of_records() {
    let mut rng = Rng::for_test("every_number_of_records");
    for records in 0..=140 {
        for minutes in [1, 5, 1_440] {
            let drafts: Vec<Draft> =
                (0..records).map(|_| on_a_day(rng.within(1..=5) as u8, minutes, &mut rng)).collect();
            let file = File::random(&drafts, &mut rng).bytes;
            assert_eq!(compare_page(&file, 4_822, Skip, |_| true).len(), records);
        }
    }
}

/// The most that a book can have: 4,680 to-dos of 14 bytes, or 4,368 dated records of 15, both without a text.
#[test]
fn the_most_records() {
    let mut rng = Rng::for_test("the_most_records");
    for (kind, records, lines) in [(6, 4_680, 0), (1, 4_368, 4_368)] {
        let bare = |_| Draft { text: vec![], ..on_a_day(kind, 1_440, &mut rng) };
        let drafts: Vec<Draft> = (0..records).map(bare).collect();
        let file = File::new([0, 0, 1, 0, 0, 0, 0], &drafts).bytes;
        assert_eq!(file.len(), 65_535);
        assert_eq!(compare_page(&file, 4_822, Last, |line| line % 97 == 0).len(), lines);
        for record in [0, records - 1, records] {
            compare_record(&file, record, 4_000, Skip);
        }
    }
}

/// A small record on 15 March 1993, at one of so many minutes.
fn on_a_day(kind: u8, minutes: usize, rng: &mut Rng) -> Draft {
    let mut draft = small(kind, rng);
    let start = (rng.within(0..=minutes - 1) * 1_440 / minutes) as u16;
    draft.put(Field::Times, [start.to_be_bytes(), 1_439u16.to_le_bytes()].concat());
    draft.put(Field::Date, [93, 3, 15]);
    draft.put(Field::Dates, [80, 1, 1, 199, 12, 31]);
    draft.put(Field::Weekday, [2]);
    draft.put(Field::Week, [3]);
    draft.put(Field::Day, [15]);
    draft.put(Field::MonthAndDay, [3, 15]);
    draft
}

/// Every length of the buffer, from none to some more than enough.
#[test]
fn every_room() {
    let mut rng = Rng::for_test("every_room");
    for _ in 0..40 {
        let day = edge_day(&mut rng);
        let file = book_near(day, rng.within(0..=6), &mut rng).bytes;
        let page = printed::printed_page(&file, day, Last).expect("a right book");
        for room in 0..page.len() + 9 {
            let (answer, bytes) = print(&file, day, Last, room);
            let mut expected = before(room);
            assert_eq!(answer, printed::print_page(&file, day, Last, &mut expected).answer());
            assert_eq!(answer.number == 0, room >= page.len());
            assert!(bytes == expected, "room {room}");
        }
    }
}
