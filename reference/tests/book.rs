//! The proved book reader against the plain one: every field of every answer, refusals too.

use apptbook::raw::book::{self as proved, BookAnswer, LineAnswer, LinesAnswer, RecordAnswer};
use reference::answers::IntoAnswer;
use reference::book as plain;
use reference::books::{changes, edge_notes, long, small, Cases, Draft, File, DAMAGES, SETTINGS};
use reference::notes;
use reference::records::Record;
use reference::refusal::{Refusal, NO_SUCH_NUMBER};
use reference::rng::Rng;
use reference::vectors::fillers;
use reference::vectors::{every_kind, with_faults, CUTS, FAULTS, SEVERAL_FAULTS, WHOLE_CASE};

#[test]
fn the_whole_case() {
    let file = &WHOLE_CASE;
    let book = BookAnswer {
        number: 0,
        place: 0,
        records: 1,
        start: 480,
        granularity: 30,
        lead: 5,
        alarm: true,
        carry_forward: false,
    };
    assert_eq!(proved::read_book(file), book);
    let record = RecordAnswer {
        at: 12,
        text_at: 27,
        text_length: 3,
        note_at: 30,
        kind: 1,
        start: 600,
        end: 660,
        lead: 5,
        first_year: 1993,
        first_month: 3,
        first_day: 15,
        flag: true,
        ..Default::default()
    };
    assert_eq!(proved::record(file, 0), record);
    assert_eq!(&file[27..30], b"Dep");
    assert_eq!(proved::note_lines(file, 0), LinesAnswer::default());
    let none = proved::note_line(file, 0, 0);
    assert_eq!(none, LineAnswer { number: 10, ..Default::default() });
    assert_eq!(proved::record(file, 1), RecordAnswer { number: 10, ..Default::default() });
}

/// The records of `every_kind` as they are to come over, written out by hand.
fn every_kind_answers() -> [RecordAnswer; 7] {
    let none = RecordAnswer::default();
    let dated = RecordAnswer {
        at: 12,
        text_at: 27,
        note_at: 27,
        kind: 1,
        end: 1_439,
        lead: 30,
        first_year: 1980,
        first_month: 1,
        first_day: 1,
        flag: true,
        ..none
    };
    let weekly = RecordAnswer {
        at: 27,
        text_at: 46,
        text_length: 2,
        note_at: 48,
        note_length: 4,
        kind: 2,
        weekday: 3,
        start: 300,
        end: 300,
        first_year: 1993,
        first_month: 3,
        first_day: 16,
        last_year: 2099,
        last_month: 12,
        last_day: 31,
        ..none
    };
    let monthly_by_date = RecordAnswer {
        at: 52,
        text_at: 71,
        text_length: 1,
        note_at: 72,
        kind: 3,
        day: 31,
        start: 1_439,
        end: 1_439,
        lead: 15,
        first_year: 2000,
        first_month: 2,
        first_day: 29,
        last_year: 2000,
        last_month: 2,
        last_day: 29,
        ..none
    };
    let monthly_by_position = RecordAnswer {
        at: 77,
        text_at: 97,
        text_length: 27,
        note_at: 124,
        kind: 4,
        weekday: 1,
        week: 5,
        start: 5,
        end: 5,
        lead: 1,
        first_year: 1980,
        first_month: 1,
        first_day: 1,
        last_year: 2099,
        last_month: 12,
        last_day: 31,
        flag: true,
        ..none
    };
    let yearly = RecordAnswer {
        at: 124,
        text_at: 144,
        text_length: 3,
        note_at: 147,
        note_length: 1,
        kind: 5,
        month: 2,
        day: 29,
        start: 600,
        end: 601,
        lead: 30,
        first_year: 1992,
        first_month: 2,
        first_day: 29,
        last_year: 1993,
        last_month: 2,
        last_day: 28,
        ..none
    };
    let done = RecordAnswer {
        at: 148,
        text_at: 162,
        text_length: 4,
        note_at: 166,
        kind: 6,
        priority: 9,
        first_year: 1993,
        first_month: 3,
        first_day: 15,
        check_off_year: 1993,
        check_off_month: 3,
        check_off_day: 1,
        flag: true,
        checked_off: true,
        ..none
    };
    let to_do = RecordAnswer {
        at: 166,
        text_at: 180,
        note_at: 180,
        kind: 6,
        priority: 1,
        first_year: 2099,
        first_month: 12,
        first_day: 31,
        ..none
    };
    [dated, weekly, monthly_by_date, monthly_by_position, yearly, done, to_do]
}

#[test]
fn every_kind_by_hand() {
    let file = every_kind();
    let book = BookAnswer {
        records: 7,
        start: 1_439,
        granularity: 720,
        lead: 30,
        carry_forward: true,
        ..Default::default()
    };
    assert_eq!(proved::read_book(&file), book);
    for (number, record) in every_kind_answers().into_iter().enumerate() {
        assert_eq!(proved::record(&file, number), record);
    }
    let line = |at, length| LineAnswer { number: 0, place: 0, at, length };
    assert_eq!(proved::note_lines(&file, 1), LinesAnswer { number: 0, place: 0, lines: 3 });
    assert_eq!(proved::note_line(&file, 1, 0), line(48, 1));
    assert_eq!(proved::note_line(&file, 1, 1), line(50, 0));
    assert_eq!(proved::note_line(&file, 1, 2), line(51, 1));
    assert_eq!(proved::note_line(&file, 4, 0), line(147, 0));
    compare(&file, "every kind");
}

/// Calls on this record and this line are to be refused in this way.
fn is_refused(file: &[u8], record: usize, line: usize, refusal: Refusal) {
    assert_eq!(proved::record(file, record), Err(refusal).answer());
    assert_eq!(proved::note_lines(file, record), Err(refusal).answer());
    assert_eq!(proved::note_line(file, record, line), Err(refusal).answer());
}

fn is_refused_book(file: &[u8], refusal: Refusal) {
    assert_eq!(proved::read_book(file), Err(refusal).answer());
    is_refused(file, 0, 0, refusal);
    is_refused(file, usize::MAX, usize::MAX, refusal);
}

#[test]
fn faults_by_hand() {
    for &(at, bytes, number, place) in FAULTS {
        println!("{bytes:?} at {at}");
        let mut file = every_kind();
        file[at..at + bytes.len()].copy_from_slice(bytes);
        is_refused_book(&file, Refusal { number, place });
    }
    for &(length, number, place) in CUTS {
        println!("cut to {length}");
        is_refused_book(&every_kind()[..length], Refusal { number, place });
    }
    is_refused_book(&[every_kind(), vec![0]].concat(), Refusal { number: 9, place: 183 });
    for &(changes, length, number, place) in SEVERAL_FAULTS {
        println!("{changes:?}, length {length}");
        is_refused_book(&with_faults(changes, length), Refusal { number, place });
    }
}

/// What comes after the end record, or would if there were one.
mod after_the_end {
    use super::*;

    fn are_judged(cases: impl IntoIterator<Item = fillers::Case>) {
        for fillers::Case { name, file, answer: (number, place) } in cases {
            let BookAnswer { number: given, place: at, .. } = proved::read_book(&file);
            assert_eq!((given, at), (number, place), "{name}");
            compare(&file, &name);
        }
    }

    #[test]
    fn every_number_of_fillers() {
        are_judged(fillers::every_number());
    }

    #[test]
    fn every_wrong_byte() {
        are_judged(fillers::every_wrong_one());
        are_judged(fillers::two_wrong_ones());
        are_judged(fillers::too_many_and_a_wrong_one());
    }

    #[test]
    fn the_greatest_size() {
        are_judged(fillers::the_greatest_size());
    }

    #[test]
    fn records_come_first() {
        are_judged(fillers::faults_in_records());
    }

    #[test]
    fn no_end_record() {
        are_judged(fillers::without_an_end());
    }

    #[test]
    fn padding_is_no_filler() {
        are_judged(fillers::padding());
    }
}

fn compare(file: &[u8], name: &str) {
    compare_some(file, name, |_| true);
}

/// Compares all answers about the book, about such records and about the last one.
/// The file is lent in the midst of bytes that would go on with it, and none may be changed.
fn compare_some(file: &[u8], name: &str, asked: impl Fn(usize) -> bool) {
    const AFTER: [u8; 18] = [6, 11, 0, 0, 1, 93, 3, 15, 0, 0, 0, 0, 0, 0, 50, 0, 0, 50];
    let lent = [&[0xFF], file, &AFTER].concat();
    let part = &lent[1..=file.len()];
    let show = || if file.len() < 500 { format!("{name}: {file:?}") } else { name.to_string() };
    assert_eq!(proved::read_book(part), plain::read_book(file).answer(), "{}", show());
    match plain::records(file) {
        Ok(records) => {
            for (number, record) in records.iter().enumerate() {
                if asked(number) || number + 1 == records.len() {
                    compare_record(part, number, record, &show);
                }
            }
            for number in [records.len(), records.len() + 1, usize::MAX] {
                is_refused(part, number, 0, NO_SUCH_NUMBER);
            }
        }
        Err(refusal) => is_refused_book(part, refusal),
    }
    assert!(lent == [&[0xFF], file, &AFTER].concat(), "changed: {}", show());
}

fn compare_record(file: &[u8], number: usize, record: &Record, show: &impl Fn() -> String) {
    let answer = proved::record(file, number);
    assert_eq!(answer, Ok(record.clone()).answer(), "record {number}, {}", show());
    assert!(answer.text_at + answer.text_length <= file.len());
    assert!(answer.note_at + answer.note_length <= file.len());
    let at = record.note.start;
    let mut lines = 0;
    for line in notes::lines(&file[record.note.clone()]) {
        let expected = Ok(at + line.start..at + line.end).answer();
        assert_eq!(proved::note_line(file, number, lines), expected, "line {lines}, {}", show());
        lines += 1;
    }
    assert_eq!(proved::note_lines(file, number), Ok(lines).answer(), "{}", show());
    for line in [lines, usize::MAX] {
        assert_eq!(proved::note_line(file, number, line), Err(NO_SUCH_NUMBER).answer(), "{}", show());
    }
}

/// All records of small books, some of large ones.
#[test]
fn random_books() {
    for case in Cases::new(Rng::for_test("random_books")).take(120_000) {
        let all = case.file.len() < 20_000;
        compare_some(&case.file, &case.name, |number| all || number % 499 == 0);
    }
}

#[test]
fn every_change() {
    let mut rng = Rng::for_test("every_change");
    for change in changes() {
        for kind in (1..=6).filter(|&kind| change.fits(kind)) {
            for _ in 0..5 {
                let mut records = [1, kind, 6].map(|kind| Draft::random(kind, &mut rng));
                change.apply(&mut records[1], &mut rng);
                compare(&File::random(&records, &mut rng).bytes, &change.name);
            }
        }
    }
    for (name, _, damage) in DAMAGES {
        for _ in 0..20 {
            let records = [1, 2, 6].map(|kind| Draft::random(kind, &mut rng));
            let mut file = File::random(&records, &mut rng);
            damage(&mut file, &mut rng);
            compare(&file.bytes, name);
        }
    }
    for &(at, _, values) in SETTINGS {
        for value in values {
            let mut file = every_kind();
            file[at..at + value.len()].copy_from_slice(value);
            compare(&file, "settings");
        }
    }
}

#[test]
fn notes_at_their_edges() {
    let mut rng = Rng::for_test("notes_at_their_edges");
    let (mut right, mut wrong) = (0, 0);
    for note in edge_notes() {
        let record = Draft { note, ..small(rng.within(1..=6) as u8, &mut rng) };
        let file = File::random(&[record], &mut rng).bytes;
        compare(&file, "a note at an edge");
        match plain::read_book(&file) {
            Ok(_) => right += 1,
            Err(refusal) => wrong += usize::from(refusal.number == 8),
        }
    }
    assert!(right > 1_000 && wrong > 1_000, "{right} right, {wrong} wrong");
}

#[test]
fn two_faults_in_a_record() {
    let mut rng = Rng::for_test("two_faults_in_a_record");
    let changes: Vec<_> = changes().into_iter().filter(|change| change.number != 0).collect();
    for first in &changes {
        for second in &changes {
            let mut record = Draft::random(rng.within(1..=6) as u8, &mut rng);
            first.apply(&mut record, &mut rng);
            second.apply(&mut record, &mut rng);
            let file = File::random(&[record], &mut rng);
            compare(&file.bytes, &format!("{} and {}", first.name, second.name));
        }
    }
}

fn some_files(count: usize, rng: Rng) -> impl Iterator<Item = Vec<u8>> {
    let right = Cases::new(rng).filter(|case| case.answer == Some((0, 0)) && case.file.len() < 1_000);
    [WHOLE_CASE.to_vec(), every_kind()].into_iter().chain(right.map(|case| case.file)).take(count)
}

#[test]
fn every_cut() {
    for file in some_files(40, Rng::for_test("every_cut")) {
        for length in 0..file.len() {
            compare(&file[..length], "cut");
        }
    }
}

/// Every byte of the books by hand changed to every value, and of some more books to a few.
#[test]
fn every_byte() {
    let few = |byte: u8| vec![0, 1, 50, 255, byte.wrapping_add(1), byte.wrapping_sub(1), byte ^ 128];
    for (number, mut file) in some_files(12, Rng::for_test("every_byte")).enumerate() {
        for at in 0..file.len() {
            let byte = file[at];
            for value in if number < 2 { (0..=255).collect() } else { few(byte) } {
                file[at] = value;
                compare(&file, "a byte changed");
            }
            file[at] = byte;
        }
    }
}

#[test]
fn the_longest_books() {
    let mut rng = Rng::for_test("the_longest_books");
    for kind in 1..=6 {
        let many = File::full(65_535, || small(kind, &mut rng)).bytes;
        compare_some(&many, "many small records", |number| number % 31 == 0);
        let few = File::full(65_535, || long(kind, &mut rng)).bytes;
        compare_some(&few, "few long records", |number| number % 7 == 0);
        let one = File::padded(65_535, vec![long(kind, &mut rng)]).bytes;
        compare(&one, "one record");
        is_refused_book(&[one, vec![0]].concat(), Refusal { number: 1, place: 0 });
    }
}
