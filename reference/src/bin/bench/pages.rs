//! Day pages and the next occurrence, most of them with the choice skip; and the choice of a caller who names none.

use super::{again, hidden, kept, row, Cells, Row, Run};
use apptbook::raw::pages as proved;
use reference::book::{self, LONGEST};
use reference::books::{book_near, small, Field, File};
use reference::days::LAST_DAY;
use reference::occurrences::soonest;
use reference::pages::ShortMonth::{self, Last, Skip};
use reference::pages::{self as plain, Search};
use reference::printed;
use reference::refusal::Refusal;
use reference::rng::Rng;
use std::cell::RefCell;

const CALLS: usize = 20;
pub const DAY: u16 = 4_822;
/// To which records of the 31st are moved.
pub const APRIL_30: u16 = 4_868;

/// Of a row about that day.
const fn choice(day: u16) -> ShortMonth {
    if day == APRIL_30 {
        Last
    } else {
        Skip
    }
}

type Book = fn() -> &'static [u8];

/// A file, a record's or line's number and a day.
type Asked = (&'static [u8], usize, u16);

/// Twelve records of any kinds, most of which fall on the day.
pub fn small_book() -> &'static [u8] {
    let mut file = book_near(DAY, 12, &mut Rng::new(1));
    file.fill(0);
    kept(file.bytes)
}

/// Of 65,535 bytes: small records of all kinds, any dates.
pub fn full_book() -> &'static [u8] {
    let mut rng = Rng::new(1);
    kept(File::full(LONGEST, || small(rng.within(1..=6) as u8, &mut rng)).bytes)
}

/// Of 65,535 bytes: small records of one kind with these values, at any minutes.
fn full_of(kind: u8, values: &[(Field, &[u8])]) -> &'static [u8] {
    let mut rng = Rng::new(1);
    let record = || {
        let mut draft = small(kind, &mut rng);
        let start = rng.within(0..=1_439) as u16;
        draft.put(Field::Times, [start.to_be_bytes(), 1_439u16.to_le_bytes()].concat());
        values.iter().for_each(|(field, value)| draft.put(*field, value));
        draft
    };
    kept(File::full(LONGEST, record).bytes)
}

/// Dated ones, all on the same day.
pub fn one_day() -> &'static [u8] {
    full_of(1, &[(Field::Date, &[93, 3, 15])])
}

/// Of each 31st.
pub fn all_moved() -> &'static [u8] {
    full_of(3, &[(Field::Day, &[31]), (Field::Dates, &[80, 1, 1, 199, 12, 31])])
}

/// A book of one record with this value.
fn single(kind: u8, field: Field, value: &[u8], dates: [u8; 6]) -> &'static [u8] {
    let mut draft = small(kind, &mut Rng::new(1));
    draft.put(field, value);
    draft.put(Field::Dates, dates);
    kept(File::new([0, 0, 1, 0, 0, 0, 0], &[draft]).bytes)
}

/// On 1 January 1980 only.
fn ended() -> &'static [u8] {
    single(2, Field::Weekday, &[3], [80, 1, 1, 80, 1, 1])
}

fn leap_day() -> &'static [u8] {
    single(5, Field::MonthAndDay, &[2, 29], [196, 1, 1, 199, 12, 31])
}

pub fn records(file: &[u8]) -> usize {
    book::read_book(file).expect("a right book").records
}

fn by_record(file: &[u8]) -> Option<(usize, &'static str)> {
    Some((records(file), "record"))
}

fn printing<const ON: u16>(case: &'static str, book: Book) -> Row {
    row("print_page", case, CALLS, move || {
        let file = book();
        let lent = |print: fn(&[u8], &mut [u8]) -> usize| -> Option<Run> {
            let buffer = RefCell::new(vec![0; LONGEST]);
            again(file, move |file| print(file, &mut buffer.borrow_mut()))
        };
        let by_proved = lent(|file, buffer| proved::print_page(file, ON, choice(ON), buffer).count);
        let by_plain = lent(|file, buffer| printed::print_page(file, ON, choice(ON), buffer).expect("room"));
        Cells { runs: [by_proved, by_plain, None], size: by_record(file) }
    })
}

fn length<const ON: u16>(case: &'static str, book: Book) -> Row {
    row("page_length", case, CALLS, move || {
        let file = book();
        let by_plain = hidden(|file| printed::page_length(file, ON, choice(ON)));
        let by_proved = again(file, |file| proved::page_length(file, ON, choice(ON)));
        Cells { runs: [by_proved, again(file, by_plain), None], size: by_record(file) }
    })
}

fn counting(case: &'static str, book: Book) -> Row {
    row("page_lines", case, CALLS, move || {
        let file = book();
        let by_plain = hidden(|file| plain::page_lines(file, DAY, Skip));
        let by_proved = again(file, |file| proved::page_lines(file, DAY, Skip));
        Cells { runs: [by_proved, again(file, by_plain), None], size: by_record(file) }
    })
}

fn last_line<const ON: u16>(case: &'static str, book: Book) -> Row {
    row("page_line", case, CALLS, move || {
        let file = book();
        let lines = plain::page_lines(file, ON, choice(ON)).expect("a right book");
        let asked: Asked = (file, lines - 1, ON);
        let by_plain = hidden(|(file, line, day): Asked| plain::page_line(file, day, choice(ON), line));
        let by_proved = again(asked, |(file, line, day)| proved::page_line(file, day, choice(ON), line));
        Cells { runs: [by_proved, again(asked, by_plain), None], size: by_record(file) }
    })
}

/// For the book's last record.
fn falling<const ON: u16>(case: &'static str, book: Book) -> Row {
    row("falls_on", case, CALLS, move || {
        let file = book();
        let asked: Asked = (file, records(file) - 1, ON);
        let by_plain = hidden(|(file, record, day): Asked| plain::falls_on(file, record, day, choice(ON)));
        let by_proved = again(asked, |(file, record, day)| proved::falls_on(file, record, day, choice(ON)));
        Cells { runs: [by_proved, again(asked, by_plain), None], size: by_record(file) }
    })
}

/// For the book's last record.
fn searching(case: &'static str, book: Book, from: u16) -> Row {
    row("next_occurrence", case, CALLS, move || {
        let file = book();
        let asked: Asked = (file, records(file) - 1, from);
        let by_proved = |(file, record, day): Asked| proved::next_occurrence(file, record, day, Skip);
        let by_plain = hidden(|(file, record, day): Asked| plain::next_occurrence(file, record, day, Skip));
        assert_eq!(by_plain(asked), jumping(asked));
        let runs = [again(asked, by_proved), again(asked, by_plain), again(asked, hidden(jumping))];
        let looked = by_plain(asked).expect("a right book").looked as usize;
        let size = if records(file) == 1 { Some((looked, "day")) } else { by_record(file) };
        Cells { runs, size }
    })
}

/// From one occurrence to the next instead of day by day.
fn jumping((file, record, from): Asked) -> Result<Search, Refusal> {
    let day = soonest(&book::record(file, record)?.entry, from, Skip);
    Ok(Search { day, looked: u32::from(day.unwrap_or(LAST_DAY) - from + 1) })
}

fn default_choice() -> Row {
    row("default_last", "", 10_000, || {
        let by_plain = hidden(|()| plain::DEFAULT == Last);
        Cells { runs: [again((), |()| proved::default_last()), again((), by_plain), None], size: None }
    })
}

pub fn rows() -> Vec<Row> {
    vec![
        default_choice(),
        falling::<DAY>("12 records", small_book),
        falling::<DAY>("full, all kinds", full_book),
        falling::<APRIL_30>("full, all moved", all_moved),
        searching("weekly and ended", ended, 1),
        searching("29 February 2096", leap_day, 0),
        searching("full, all kinds", full_book, DAY),
        counting("12 records", small_book),
        counting("full, all kinds", full_book),
        counting("full, all on the day", one_day),
        last_line::<DAY>("12 records", small_book),
        last_line::<DAY>("full, all kinds", full_book),
        last_line::<DAY>("full, all on the day", one_day),
        last_line::<APRIL_30>("full, all moved", all_moved),
        length::<DAY>("12 records", small_book),
        length::<DAY>("full, all kinds", full_book),
        length::<DAY>("full, all on the day", one_day),
        length::<APRIL_30>("full, all moved", all_moved),
        printing::<DAY>("12 records", small_book),
        printing::<DAY>("full, all kinds", full_book),
        printing::<DAY>("full, all on the day", one_day),
        printing::<APRIL_30>("full, all moved", all_moved),
    ]
}
