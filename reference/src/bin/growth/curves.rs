//! What is measured: calls of the proved library, each for any size.

use super::Axis;
use apptbook::raw::{book, chains, export, pages};
use reference::books::{small, Draft, Field, File};
use reference::callgrind::Run;
use reference::chains::APPOINTMENT;
use reference::civil;
use reference::day_chains::of_one_kind;
use reference::pages::ShortMonth::Skip;
use reference::rng::Rng;
use reference::{book as plain_book, calendar};
use std::cell::RefCell;
use std::hint::black_box;

const FIRST: u16 = 4_822;
const SPAN: u16 = 366;
/// In the book to which days are counted.
const BOOK: usize = 1_024;

pub struct Curve {
    pub name: &'static str,
    pub axis: Axis,
    pub make: fn(usize) -> Run,
}

/// Dated records without a text, at any minutes, on these days.
fn book_on(records: usize, mut day: impl FnMut(usize, &mut Rng) -> u16) -> Vec<u8> {
    let mut rng = Rng::new(1);
    let record = |number| {
        let mut draft = Draft { text: vec![], ..small(1, &mut rng) };
        let start = rng.within(0..=1_439) as u16;
        let date = civil::date_of_day(day(number, &mut rng)).expect("a Calendar day");
        draft.put(Field::Times, [start.to_be_bytes(), 1_439u16.to_le_bytes()].concat());
        draft.put(Field::Date, [(date.year - 1900) as u8, date.month as u8, date.day as u8]);
        draft
    };
    let file = File::new([0xE0, 1, 30, 0, 1, 5, 0], &(0..records).map(record).collect::<Vec<_>>()).bytes;
    assert_eq!(plain_book::read_book(&file).expect("a right book").records, records);
    file
}

/// On any days of the span; the last record on that day.
fn spread(records: usize, last: u16) -> Vec<u8> {
    book_on(
        records,
        |number, rng| {
            if number + 1 == records {
                last
            } else {
                FIRST + rng.below(SPAN.into()) as u16
            }
        },
    )
}

fn spread_evenly(records: usize) -> Vec<u8> {
    spread(records, FIRST + SPAN - 1)
}

fn repeated<I: 'static, O>(input: I, call: impl Fn(&I) -> O + 'static) -> Run {
    Box::new(move |count| {
        for _ in 0..count {
            black_box(call(black_box(&input)));
        }
    })
}

fn again<O>(file: Vec<u8>, call: impl Fn(&[u8]) -> O + 'static) -> Run {
    repeated(file, move |file| call(file))
}

fn lent<O>(file: Vec<u8>, call: impl Fn(&[u8], &mut [u8]) -> O + 'static) -> Run {
    let buffer = RefCell::new(vec![0; calendar::LONGEST]);
    again(file, move |file| call(file, &mut buffer.borrow_mut()))
}

fn printing(file: Vec<u8>) -> Run {
    lent(file, |file, buffer| pages::print_page(file, FIRST, Skip, buffer))
}

/// For the last record, which falls on the last of so many days.
fn searching(records: usize, days: usize) -> Run {
    let file = spread(records, FIRST + days as u16 - 1);
    assert_eq!(pages::next_occurrence(&file, records - 1, FIRST, Skip).looked, days as u32);
    again(file, move |file| pages::next_occurrence(file, records - 1, FIRST, Skip))
}

fn exporting(file: Vec<u8>, days: usize) -> Run {
    lent(file, move |file, buffer| {
        let answer = export::export(file, FIRST, days as u16, Skip, buffer);
        assert_eq!(answer.number, 0);
    })
}

fn page_by_page(file: Vec<u8>, days: usize) -> Run {
    lent(file, move |file, buffer| {
        for day in FIRST..FIRST + days as u16 {
            pages::print_page(file, day, Skip, buffer);
        }
    })
}

/// Appointments in chains of eight.
fn checking(records: usize) -> Run {
    let days = records / 8;
    let lent = of_one_kind(APPOINTMENT, &vec![8; days], &mut Rng::new(1));
    repeated(lent, move |lent| assert_eq!(lent.lent_to(chains::check_chains).count, days))
}

pub const CURVES: &[Curve] = &[
    Curve {
        name: "read the book",
        axis: Axis::Records,
        make: |records| again(spread_evenly(records), book::read_book),
    },
    Curve {
        name: "number of lines",
        axis: Axis::Records,
        make: |records| again(spread_evenly(records), |file| pages::page_lines(file, FIRST, Skip)),
    },
    Curve {
        name: "page, 1 record in 366",
        axis: Axis::Records,
        make: |records| printing(spread_evenly(records)),
    },
    Curve {
        name: "page of all records",
        axis: Axis::Records,
        make: |records| printing(book_on(records, |_, _| FIRST)),
    },
    Curve {
        name: "next, 366 days off",
        axis: Axis::Records,
        make: |records| searching(records, SPAN.into()),
    },
    Curve {
        name: "export of 366 days",
        axis: Axis::Records,
        make: |records| exporting(spread_evenly(records), SPAN.into()),
    },
    Curve { name: "day chains of eight", axis: Axis::Records, make: checking },
    Curve { name: "next, of 1 record", axis: Axis::Days, make: |days| searching(1, days) },
    Curve { name: "next, of 1,024", axis: Axis::Days, make: |days| searching(BOOK, days) },
    Curve { name: "export", axis: Axis::Days, make: |days| exporting(spread_evenly(BOOK), days) },
    Curve { name: "page by page", axis: Axis::Days, make: |days| page_by_page(spread_evenly(BOOK), days) },
];
