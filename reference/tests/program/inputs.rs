//! Books on standard input: of full size and more, in pieces, or none.

use super::{compare, run, run_slowly, words};
use reference::books::{small, Field, File};
use reference::process::{apptbook, said};
use reference::program::output;
use reference::rng::Rng;
use reference::vectors::calendars::whole_case;
use reference::vectors::commands::{EXPORTS, FILLED_BOOKS, PAGES, REFUSALS};
use reference::vectors::fillers::{filled, fillers};
use reference::vectors::moved;
use reference::vectors::{every_kind, WHOLE_CASE};
use std::ffi::OsStr;
use std::process::Command;

/// All records on one day.
fn full_book(size: usize, rng: &mut Rng) -> Vec<u8> {
    let record = || {
        let mut draft = small(1, rng);
        draft.put(Field::Date, [93, 3, 15]);
        draft
    };
    File::full(size, record).bytes
}

#[test]
fn long_books() {
    let mut rng = Rng::for_test("long_books");
    for size in [4_095, 4_096, 32_768, 65_534, 65_535] {
        let file = full_book(size, &mut rng);
        assert!(compare(&words([b"4822", b"last"]), &file).len() > size / 2);
        compare(&words([b"4821", b"last"]), &file);
        compare(&words([b"43830", b"last"]), &file);
    }
    let file = full_book(65_535, &mut rng);
    for more in [1, 2, 465, 65_535, 65_536, 1_000_000, 8_000_000] {
        let input = [&file[..], &vec![b'x'; more]].concat();
        assert_eq!(compare(&words([b"4822", b"last"]), &input), b"1 0\n", "{more} more");
        assert_eq!(compare(&[], &input), b"1 0\n", "{more} more");
    }
    assert_eq!(compare(&words([b"4822", b"last"]), &vec![0; 3_000_000]), b"1 0\n");
}

/// Every line is moved, and the page is printed whole.
#[test]
fn full_pages_of_moved_lines() {
    for (book, page) in moved::full_pages() {
        assert!(run(&words([b"4868", b"last"]), &book) == page, "not the {} bytes", page.len());
        assert_eq!(run(&words([b"4868", b"skip"]), &book), b"1993-04-30 Fri 0\n");
    }
}

/// Filled up to a block of 128 bytes, as it comes over a modem.
#[test]
fn filled_books() {
    let line = |command: &[&[u8]]| -> Vec<Vec<u8>> { command.iter().map(|word| word.to_vec()).collect() };
    for (command, expected) in PAGES {
        assert_eq!(run(&line(command), &filled(95)), *expected, "{command:?}");
    }
    for command in EXPORTS {
        assert_eq!(run(&line(command), &filled(95)), whole_case(), "{command:?}");
    }
    for (after, expected) in FILLED_BOOKS {
        let book = [&WHOLE_CASE[..], after].concat();
        for command in [PAGES[0].0, EXPORTS[0], REFUSALS[0].0] {
            assert_eq!(run(&line(command), &book), *expected, "{} bytes after the end", after.len());
        }
    }
}

/// Its fillers count.
#[test]
fn the_longest_filled_books() {
    let mut rng = Rng::for_test("the_longest_filled_books");
    for count in [1, 126, 127] {
        let book = full_book(65_535 - count, &mut rng);
        let page = compare(&words([b"4822", b"last"]), &book);
        assert!(page.len() > 30_000);
        let file = [book, fillers(count)].concat();
        assert!(compare(&words([b"4822", b"last"]), &file) == page);
        for more in [1, 2, 128, 100_000] {
            let input = [&file[..], &fillers(more)].concat();
            assert_eq!(compare(&words([b"4822", b"last"]), &input), b"1 0\n", "{count} and {more}");
        }
    }
}

/// The same, however few bytes come at a time.
#[test]
fn slow_books() {
    let mut rng = Rng::for_test("slow_books");
    let full = full_book(65_535, &mut rng);
    let command = words([b"4822", b"last"]);
    for (file, lengths) in [
        (WHOLE_CASE.to_vec(), &[1, 2, 5, 32][..]),
        (filled(95), &[1, 33, 127]),
        ([every_kind(), fillers(73)].concat(), &[128]),
        (every_kind(), &[1, 7, 182]),
        (full.clone(), &[100, 4_095, 4_096, 4_097, 65_534]),
        ([full, vec![50]].concat(), &[1_000, 65_535, 65_536]),
    ] {
        for &length in lengths {
            let written = run_slowly(&command, file.chunks(length));
            assert!(written == output(&command, &file), "{} bytes by {length}", file.len());
        }
    }
}

fn without_input(words: &[&str], how: &str) -> Vec<u8> {
    let mut command = Command::new("sh");
    let script = format!("exec \"$0\" \"$@\" {how}");
    command.args([OsStr::new("-c"), OsStr::new(&script), apptbook().as_os_str()]).args(words);
    let output = command.output().unwrap_or_else(|e| panic!("{command:?}: {e}"));
    said(&command, output)
}

#[test]
fn empty_input() {
    for words in [&["4822", "last"][..], &["4822", "1", "skip"], &["43830", "last"], &["4822"], &[]] {
        assert_eq!(without_input(words, "</dev/null"), b"2 0\n", "{words:?}");
    }
}

#[test]
fn closed_input() {
    for words in [&["4822", "last"][..], &["4822"], &[]] {
        assert_eq!(without_input(words, "<&-"), b"2 0\n", "{words:?}");
    }
}
