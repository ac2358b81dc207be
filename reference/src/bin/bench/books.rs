//! Reading books: the case of 33 bytes, books of 65,535, and such with 127 fillers.

use super::{again, hidden, kept, row, Cells, Row};
use apptbook::raw::book as proved;
use reference::book as plain;
use reference::books::{long, small, Draft, File};
use reference::rng::Rng;
use reference::vectors::fillers::filled;
use reference::vectors::{every_kind, WHOLE_CASE};

const CALLS: usize = 20;
const FILLERS: usize = 127;

type Book = fn() -> &'static [u8];

/// A file, a record's number and a line's.
type Asked = (&'static [u8], usize, usize);

fn case() -> &'static [u8] {
    &WHOLE_CASE
}

/// Its record 1 has a note of three lines.
fn with_a_note() -> &'static [u8] {
    kept(every_kind())
}

/// Of 65,535 bytes: 3,747 dated records with short texts.
fn full_of_small() -> &'static [u8] {
    let mut rng = Rng::new(1);
    kept(File::full(plain::LONGEST, || small(1, &mut rng)).bytes)
}

fn filled_case() -> &'static [u8] {
    kept(filled(FILLERS))
}

/// Of 65,535 bytes with its fillers: dated records with short texts.
fn full_and_filled() -> &'static [u8] {
    let mut rng = Rng::new(1);
    let mut file = File::full(plain::LONGEST - FILLERS, || small(1, &mut rng));
    file.fill(FILLERS);
    kept(file.bytes)
}

/// Of 65,535 bytes: 135 dated records with notes of 440 bytes.
fn full_of_long() -> &'static [u8] {
    let mut rng = Rng::new(1);
    kept(File::full(plain::LONGEST, || long(1, &mut rng)).bytes)
}

/// Of 65,535 bytes: records of all kinds, with texts, notes and padding of any length.
fn full_of_any() -> &'static [u8] {
    let mut rng = Rng::new(1);
    kept(File::full(plain::LONGEST, || Draft::random(rng.within(1..=6) as u8, &mut rng)).bytes)
}

/// Of 65,535 bytes: dated records whose notes have an empty line and one of 39 bytes in turn.
fn full_of_turns() -> &'static [u8] {
    let mut rng = Rng::new(1);
    let turn = [&[0], &[b'x'; 39][..], &[0]].concat();
    let note = [&turn.repeat(5)[..], &[0]].concat();
    kept(File::full(plain::LONGEST, || Draft { note: note.clone(), ..small(1, &mut rng) }).bytes)
}

fn records(file: &[u8]) -> usize {
    plain::read_book(file).expect("a right book").records
}

fn reading(case: &'static str, book: Book, by_record: bool) -> Row {
    row("read_book", case, CALLS, move || {
        let file = book();
        let runs = [again(file, proved::read_book), again(file, hidden(plain::read_book)), None];
        let size = if by_record { (records(file), "record") } else { (file.len(), "byte") };
        Cells { runs, size: Some(size) }
    })
}

/// Record and line are the last ones where none is named.
fn asked(file: &'static [u8], record: Option<usize>) -> Asked {
    let record = record.unwrap_or(records(file) - 1);
    (file, record, plain::note_lines(file, record).expect("a record").saturating_sub(1))
}

fn one_record(case: &'static str, book: Book) -> Row {
    row("record", case, CALLS, move || {
        let asked = asked(book(), None);
        let by_plain = hidden(|(file, record, _): Asked| plain::record(file, record));
        let by_proved = again(asked, |(file, record, _)| proved::record(file, record));
        Cells { runs: [by_proved, again(asked, by_plain), None], size: Some((asked.0.len(), "byte")) }
    })
}

fn number_of_lines(case: &'static str, book: Book, record: Option<usize>) -> Row {
    row("note_lines", case, CALLS, move || {
        let asked = asked(book(), record);
        let by_plain = hidden(|(file, record, _): Asked| plain::note_lines(file, record));
        let by_proved = again(asked, |(file, record, _)| proved::note_lines(file, record));
        Cells { runs: [by_proved, again(asked, by_plain), None], size: Some((asked.0.len(), "byte")) }
    })
}

fn last_line(case: &'static str, book: Book, record: Option<usize>) -> Row {
    row("note_line", case, CALLS, move || {
        let asked = asked(book(), record);
        let by_plain = hidden(|(file, record, line): Asked| plain::note_line(file, record, line));
        let by_proved = again(asked, |(file, record, line)| proved::note_line(file, record, line));
        Cells { runs: [by_proved, again(asked, by_plain), None], size: Some((asked.0.len(), "byte")) }
    })
}

pub fn rows() -> Vec<Row> {
    vec![
        reading("the case, 33 bytes", case, false),
        reading("full, 3,747 small records", full_of_small, true),
        reading("full, 135 long records", full_of_long, false),
        reading("full, any texts and notes", full_of_any, false),
        reading("full, empty and full lines", full_of_turns, false),
        reading("the case, 127 fillers", filled_case, false),
        reading("full and filled, small ones", full_and_filled, true),
        one_record("of the case", case),
        one_record("last of 3,747 small ones", full_of_small),
        one_record("last of 135 long ones", full_of_long),
        number_of_lines("three, book of 183 bytes", with_a_note, Some(1)),
        number_of_lines("last of 135 long ones", full_of_long, None),
        last_line("third, book of 183 bytes", with_a_note, Some(1)),
        last_line("last of 135 long ones", full_of_long, None),
    ]
}
