//! Exports: the case, and books over 366 days.

use super::{again, kept, row, Cells, Row, Run};
use apptbook::raw::export as proved;
use reference::book::{self, LONGEST};
use reference::books::{book_of_span, near, small, Draft, Field, File, Span, CROWDED_SPAN};
use reference::calendar;
use reference::export as plain;
use reference::pages::ShortMonth::Skip;
use reference::rng::Rng;
use reference::vectors::WHOLE_CASE;
use std::cell::RefCell;
use std::hint::black_box;

const CALLS: usize = 2;
const SPAN: Span = CROWDED_SPAN;

type Book = fn() -> &'static [u8];
type Export = fn(&[u8], Span, &mut [u8]) -> usize;

fn exporting(case: &'static str, span: Span, book: Book) -> Row {
    row("export", case, CALLS, move || {
        let file = book();
        let lent = |export: Export| -> Option<Run> {
            let buffer = RefCell::new(vec![0; calendar::LONGEST]);
            again(file, move |file| export(file, span, &mut buffer.borrow_mut()))
        };
        let by_proved: Export = |file, span, buffer| {
            let answer = proved::export(file, span.first, span.count, Skip, buffer);
            assert_eq!(answer.number, 0);
            answer.count
        };
        let by_plain: Export =
            |file, span, buffer| plain::export(file, span.first, span.count, Skip, buffer).expect("room");
        let by_jumps: Export = |file, span, buffer| {
            plain::export_by_occurrences(file, span.first, span.count, Skip, buffer).expect("room")
        };
        let runs = [lent(by_proved), lent(black_box(by_plain)), lent(black_box(by_jumps))];
        let records = book::read_book(file).expect("a right book").records;
        Cells { runs, size: Some((records * usize::from(span.count), "record and day")) }
    })
}

fn case() -> &'static [u8] {
    &WHOLE_CASE
}

/// 200 records of all kinds, with notes and padding, near to days of the span.
fn typical() -> &'static [u8] {
    let mut file = book_of_span(SPAN, 200, &mut Rng::new(1));
    file.fill(0);
    kept(file.bytes)
}

/// Of 65,535 bytes: small records of one kind, near to days of the span.
fn full(kind: u8) -> &'static [u8] {
    let mut rng = Rng::new(1);
    let record = || {
        let day = rng.within(SPAN.first.into()..=usize::from(SPAN.first + SPAN.count - 1)) as u16;
        let small = small(kind, &mut rng);
        Draft { text: small.text, note: vec![], padding: vec![], ..near(day, kind, &mut rng) }
    };
    kept(File::full(LONGEST, record).bytes)
}

/// Of 65,535 bytes: small records, all on each Monday, at any minutes.
fn mondays() -> &'static [u8] {
    let mut rng = Rng::new(1);
    let record = || {
        let mut draft = small(2, &mut rng);
        let start = rng.within(0..=1_439) as u16;
        draft.put(Field::Times, [start.to_be_bytes(), 1_439u16.to_le_bytes()].concat());
        draft.put(Field::Weekday, [2]);
        draft.put(Field::Dates, [80, 1, 1, 199, 12, 31]);
        draft
    };
    kept(File::full(LONGEST, record).bytes)
}

pub fn rows() -> Vec<Row> {
    vec![
        exporting("the case, 1 day", Span { count: 1, ..SPAN }, case),
        exporting("200 records, 366 days", SPAN, typical),
        exporting("full, dated, 1 day", Span { count: 1, ..SPAN }, || full(1)),
        exporting("full, dated, 366 days", SPAN, || full(1)),
        exporting("full, weekly, 366 days", SPAN, || full(2)),
        exporting("full, monthly, 366 days", SPAN, || full(3)),
        exporting("full, by position, 366 days", SPAN, || full(4)),
        exporting("full, yearly, 366 days", SPAN, || full(5)),
        exporting("full, on Mondays, 366 days", SPAN, mondays),
    ]
}
