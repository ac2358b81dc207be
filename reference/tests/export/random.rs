//! Exports of books made at random, small and of full size.

use super::{compare, export, is_refused, shows_the_pages};
use reference::answers::IntoAnswer;
use reference::book::{self, LONGEST};
use reference::books::{book_of_span, near, small, Cases, Draft, Field, File, Span};
use reference::calendar;
use reference::export as plain;
use reference::pages::CHOICES;
use reference::refusal::{Refusal, OUT_OF_RANGE};
use reference::rng::Rng;

/// Thousands of books and spans, byte for byte.
#[test]
fn random_spans() {
    let mut rng = Rng::for_test("random_spans");
    let mut with_days = 0;
    for _ in 0..4_000 {
        let span = Span::random(&mut rng);
        let records = rng.within(0..=30);
        let book = book_of_span(span, records, &mut rng).bytes;
        for choice in CHOICES {
            let file = compare(&book, span, choice, 300_000).expect("room");
            with_days += usize::from(file.len() > 64);
        }
    }
    println!("{with_days} files with days");
    assert!(with_days >= 2_000);
}

#[test]
fn random_files_are_read_back() {
    let mut rng = Rng::for_test("random_files_are_read_back");
    for _ in 0..300 {
        let span = Span::random(&mut rng);
        let records = rng.within(0..=30);
        let book = book_of_span(span, records, &mut rng).bytes;
        let choice = rng.pick(&CHOICES);
        let file = compare(&book, span, choice, 300_000).expect("room");
        shows_the_pages(&book, span, choice, &file, 1);
    }
}

/// Right and damaged books, and any spans, also those that are none.
#[test]
fn random_books() {
    let mut rng = Rng::for_test("random_books");
    let mut numbers = [0; 15];
    for case in Cases::new(Rng::new(rng.u64())).take(8_000) {
        let mut span = Span::random(&mut rng);
        if rng.one_in(4) {
            span = Span { first: rng.u16(), count: rng.pick(&[0, 1, 366, 367, 1_000, 65_535]) };
        }
        let (choice, room) = (rng.pick(&CHOICES), rng.pick(&[0, 64, 192, 10_000, 200_000]));
        let mut buffer = vec![0; room];
        let expected = plain::export(&case.file, span.first, span.count, choice, &mut buffer);
        numbers[expected.map_or_else(|refusal| refusal.number as usize, |_| 0)] += 1;
        compare(&case.file, span, choice, room);
    }
    println!("books by refusal number: {numbers:?}");
    assert!(
        [0, 1, 2, 3, 4, 5, 6, 7, 8, 9, 11, 12].iter().all(|&number| numbers[number] >= 50),
        "{numbers:?}"
    );
}

/// Every length of the buffer, from none to some more than enough.
#[test]
fn every_room() {
    let mut rng = Rng::for_test("every_room");
    for _ in 0..12 {
        let span = Span { count: 9, ..Span::random(&mut rng) };
        let span = Span { first: span.first.min(43_821), ..span };
        let book = book_of_span(span, 6, &mut rng).bytes;
        let choice = rng.pick(&CHOICES);
        let file = compare(&book, span, choice, 100_000).expect("room");
        for room in 0..file.len() + 70 {
            let (answer, bytes) = export(&book, span, choice, room);
            let mut expected = super::before(room);
            let result = plain::export(&book, span.first, span.count, choice, &mut expected);
            assert_eq!(answer, result.answer());
            assert_eq!(answer.number == 0, room >= file.len());
            assert!(bytes == expected, "room {room}");
        }
    }
}

/// Books of full size over 366 days.
#[test]
fn the_longest_books() {
    let mut rng = Rng::for_test("the_longest_books");
    let span = Span { first: 4_822, count: 366 };
    for kind in 1..=6 {
        let in_span = |rng: &mut Rng| {
            let day = rng.within(4_822..=5_187) as u16;
            Draft { note: vec![], padding: vec![], ..near(day, kind, rng) }
        };
        let books = [
            File::full(LONGEST, || in_span(&mut rng)).bytes,
            File::full(LONGEST, || small(kind, &mut rng)).bytes,
        ];
        for book in books {
            let choice = rng.pick(&CHOICES);
            if let Some(file) = compare(&book, span, choice, calendar::LONGEST) {
                shows_the_pages(&book, span, choice, &file, 61);
            }
            let records = book::read_book(&book).expect("a right book").records;
            println!("kind {kind}, {records} records");
            is_refused(&[&book[..], &[50]].concat(), span, choice, 100, Refusal { number: 1, place: 0 });
            is_refused(&book, Span { first: 43_465, ..span }, choice, 100, OUT_OF_RANGE);
        }
    }
}

/// Up to 64 records and 32 days take a smaller space, and more a larger one.
#[test]
fn few_and_many() {
    let mut rng = Rng::for_test("few_and_many");
    for records in [62, 63, 64, 65, 66, 128] {
        for count in [1, 31, 32, 33, 34] {
            let span = Span { first: rng.within(0..=43_796) as u16, count };
            let book = book_of_span(span, records, &mut rng).bytes;
            for choice in CHOICES {
                let file = compare(&book, span, choice, 300_000).expect("room");
                shows_the_pages(&book, span, choice, &file, 1);
            }
        }
    }
}

/// The most that a book can have: 4,680 to-dos, or 4,368 dated records, all of one day.
#[test]
fn the_most_records() {
    let mut rng = Rng::for_test("the_most_records");
    for (kind, records, length) in [(6, 4_680, 64), (1, 4_368, 128 + 21_888)] {
        let bare = |_| {
            let mut draft = Draft { text: vec![], ..small(kind, &mut rng) };
            draft.put(Field::Date, [93, 3, 15]);
            draft
        };
        let drafts: Vec<Draft> = (0..records).map(bare).collect();
        let book = File::new([0, 0, 1, 0, 0, 0, 0], &drafts).bytes;
        assert_eq!(book.len(), LONGEST);
        for count in [1, 366] {
            let (span, choice) = (Span { first: 4_822, count }, rng.pick(&CHOICES));
            let file = compare(&book, span, choice, 100_000).expect("room");
            assert_eq!(file.len(), length);
            shows_the_pages(&book, span, choice, &file, 200);
        }
    }
}
