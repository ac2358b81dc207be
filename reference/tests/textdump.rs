//! The calls that give a text or a note as a stretch of the caller's own file, which cannot come over to C: the
//! test program `textdump` makes them, as a process, and writes what they give. It names no short-month choice.

use reference::books::{book_near, edge_day, long, small, Cases, Draft, Field, File};
use reference::calendar::day_appointments;
use reference::export::export;
use reference::pages::{page, DEFAULT};
use reference::process::{self, apptbook};
use reference::program::ROOM;
use reference::rng::Rng;
use reference::vectors::fillers::filled;
use reference::vectors::{every_kind, WHOLE_CASE};
use reference::{book, days};
use std::fs;
use std::path::Path;

fn run(words: &[&str], input: &[u8]) -> Vec<u8> {
    let words: Vec<Vec<u8>> = words.iter().map(|word| word.as_bytes().to_vec()).collect();
    process::run(&apptbook().with_file_name("textdump"), &words, input)
}

/// Text and note of each record, the text of each line of the day's page, and that of each appointment in the
/// export of the day. Nothing of a refused book, no lines of a day out of range.
fn expected_dump(file: &[u8], day: Option<u16>) -> Vec<u8> {
    let mut written = vec![];
    let mut put = |text: &[u8]| written.extend([text, b"\n"].concat());
    for record in book::records(file).unwrap_or_default() {
        put(&file[record.text]);
        put(&file[record.note]);
    }
    let day = day.unwrap_or(u16::MAX);
    for line in page(file, day, DEFAULT).unwrap_or_default() {
        put(&file[line.text]);
    }
    let mut calendar = vec![0; ROOM];
    if let Ok(length) = export(file, day, 1, DEFAULT, &mut calendar) {
        for appointment in day_appointments(&calendar[..length], day).expect("a right file") {
            put(&calendar[appointment.text]);
        }
    }
    written
}

fn compare(file: &[u8], day: u16) -> Vec<u8> {
    let (written, expected) = (run(&[&day.to_string()], file), expected_dump(file, Some(day)));
    let show = |bytes: &[u8]| String::from_utf8_lossy(&bytes[..bytes.len().min(500)]).into_owned();
    let (w, e) = (show(&written), show(&expected));
    assert!(written == expected, "day {day} of {} bytes {:?}: {w:?}, not {e:?}", file.len(), show(file));
    written
}

/// The crate's own book and what it is to write for it, both written by hand; and two more books.
#[test]
fn texts_by_hand() {
    let of_the_crate = |name: &str| {
        let path = Path::new(env!("CARGO_MANIFEST_DIR")).join("../crates/textdump").join(name);
        fs::read(&path).unwrap_or_else(|e| panic!("{}: {e}", path.display()))
    };
    assert_eq!(of_the_crate("args"), b"4822\n");
    assert_eq!(expected_dump(&of_the_crate("stdin"), Some(4_822)), of_the_crate("stdout"));
    assert_eq!(run(&["4822"], &of_the_crate("stdin")), of_the_crate("stdout"));
    assert_eq!(run(&["4822"], &WHOLE_CASE), b"Dep\n\nDep\nDep\n");
    assert_eq!(run(&["4821"], &WHOLE_CASE), b"Dep\n\n");
    assert_eq!(run(&["4822"], &filled(95)), b"Dep\n\nDep\nDep\n");
    let texts = b"\n\nGo\na\0\0b\nR\n\nJudge's list, fifth Sunday!\n\nDep\n\0\nFile\n\n\n\n";
    assert_eq!(run(&["4823"], &every_kind()), [&texts[..], b"Go\nGo\n"].concat());
    assert_eq!(run(&["0"], &every_kind()), [&texts[..], b"\n\n"].concat());
}

/// A record of each 31st is there on 30 April 1993, once on the page and once in the export, and on no other day of
/// that month: the choice of a caller who names none is last.
#[test]
fn no_choice_is_last() {
    let mut monthly = small(3, &mut Rng::new(1));
    monthly.put(Field::Day, [31]);
    monthly.put(Field::Dates, [93, 1, 1, 93, 12, 31]);
    let book = File::new([0, 0, 30, 0, 0, 0, 0], &[monthly]).bytes;
    let (record, shown) = (compare(&book, 4_867), compare(&book, 4_868));
    let text = record.split_inclusive(|&byte| byte == b'\n').next().expect("a text");
    assert_eq!(shown, [&record[..], text, text].concat());
    for day in 4_839..4_867 {
        assert_eq!(compare(&book, day), record, "day {day}");
    }
}

/// No day, or none that is one: the records alone. A refused book: nothing.
#[test]
fn words_and_refusals() {
    let long_word = "0".repeat(5_000);
    for words in
        [&[][..], &[""], &["43830"], &["65535"], &["65536"], &["70358"], &["-1"], &["x"], &[&long_word]]
    {
        assert_eq!(run(words, &WHOLE_CASE), b"Dep\n\n", "{words:?}");
        assert_eq!(run(words, &WHOLE_CASE), expected_dump(&WHOLE_CASE, None), "{words:?}");
        assert_eq!(run(words, &WHOLE_CASE[..32]), b"", "{words:?}");
    }
    assert_eq!(run(&["4822"], &[]), b"");
    assert_eq!(run(&["4822"], &[&WHOLE_CASE[..], &[0]].concat()), b"");
    assert_eq!(run(&["4822"], &filled(128)), b"");
}

#[test]
fn random_books() {
    let mut rng = Rng::for_test("random_books");
    let mut cases = Cases::new(Rng::new(rng.u64()));
    let (mut with_lines, mut without, mut refused) = (0, 0, 0);
    for number in 0..900 {
        let day = edge_day(&mut rng);
        let file = match number % 3 {
            0 => cases.next().expect("a case").file,
            _ => book_near(day, rng.within(0..=12), &mut rng).bytes,
        };
        compare(&file, day);
        match page(&file, day, DEFAULT) {
            Ok(lines) if lines.len() > 1 => with_lines += 1,
            Ok(_) => without += 1,
            Err(_) => refused += 1,
        }
    }
    println!("{with_lines} books with two lines or more, {without} with fewer, {refused} refused");
    assert!(with_lines >= 300 && without >= 100 && refused >= 100);
}

/// Full-size books: many texts on one day, few long notes, one record with much padding.
#[test]
fn the_longest_books() {
    let mut rng = Rng::for_test("the_longest_books");
    let on_a_day = |mut draft: Draft| {
        draft.put(Field::Date, [93, 3, 15]);
        draft
    };
    let many = File::full(65_535, || on_a_day(small(1, &mut rng)));
    assert!(compare(&many.bytes, 4_822).len() > 20_000);
    let few = File::full(65_535, || on_a_day(long(1, &mut rng)));
    assert!(compare(&few.bytes, 4_822).len() > 60_000);
    let one = File::padded(65_535, vec![on_a_day(long(1, &mut rng))]);
    assert_eq!(compare(&one.bytes, 4_822).len(), 28 + 441 + 28 + 28);
    assert_eq!(compare(&[&one.bytes[..], &[0]].concat(), days::LAST_DAY), b"");
}
