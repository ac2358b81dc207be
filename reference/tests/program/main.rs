//! The proved program as a process, against the plain one: what it writes to standard output, byte for byte.

mod exports;
mod inputs;
mod pipes;
mod words;

use reference::pages::ShortMonth;
use reference::process::{self, apptbook, fed, said};
use reference::program::output;
use reference::vectors::commands::{CUT_BOOKS, PAGES, REFUSALS};
use reference::vectors::pages::{self, Shown};
use reference::vectors::WHOLE_CASE;
use std::process::Command;

fn command(words: &[Vec<u8>]) -> Command {
    process::command(&apptbook(), words)
}

/// Runs it, and writes its standard input in such pieces.
fn run_slowly<'a>(words: &[Vec<u8>], pieces: impl Iterator<Item = &'a [u8]> + Send) -> Vec<u8> {
    let mut command = command(words);
    let output = fed(&mut command, pieces);
    said(&command, output)
}

fn run(words: &[Vec<u8>], input: &[u8]) -> Vec<u8> {
    process::run(&apptbook(), words, input)
}

fn words<const N: usize>(words: [&[u8]; N]) -> [Vec<u8>; N] {
    words.map(|word| word.to_vec())
}

/// Compared with the plain program; gives what it wrote.
fn compare(words: &[Vec<u8>], input: &[u8]) -> Vec<u8> {
    let written = run(words, input);
    let show = |bytes: &[u8]| String::from_utf8_lossy(&bytes[..bytes.len().min(200)]).into_owned();
    let line: Vec<String> = words.iter().take(9).map(|word| show(word)).collect();
    let expected = output(words, input);
    let (w, e) = (show(&written), show(&expected));
    assert!(written == expected, "{line:?} with {} bytes: {w:?}, not {e:?}", input.len());
    written
}

#[test]
fn commands_by_hand() {
    for (command, expected) in PAGES.iter().chain(REFUSALS) {
        let words: Vec<_> = command.iter().map(|word| word.to_vec()).collect();
        assert_eq!(run(&words, &WHOLE_CASE), *expected, "{command:?}");
    }
}

#[test]
fn the_book_comes_first() {
    for (command, _) in PAGES.iter().chain(REFUSALS).step_by(5) {
        let words: Vec<_> = command.iter().map(|word| word.to_vec()).collect();
        for &(length, expected) in CUT_BOOKS {
            assert_eq!(run(&words, &WHOLE_CASE[..length]), expected, "{command:?}");
        }
        assert_eq!(run(&words, &[0; 65_536]), b"1 0\n");
        assert_eq!(run(&words, &[&WHOLE_CASE[..], b"\n"].concat()), b"9 33\n");
    }
}

#[test]
fn pages_by_hand() {
    for Shown { book, day, choice, page } in pages::all() {
        let word: &[u8] = if choice == ShortMonth::Last { b"last" } else { b"skip" };
        assert_eq!(run(&words([day.to_string().as_bytes(), word]), &book), page);
    }
}
