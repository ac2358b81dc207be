//! The plain program alone, as a function: command lines by hand.

use reference::books::crowded;
use reference::pages::ShortMonth;
use reference::program::output;
use reference::vectors::calendars::{empty, whole_case};
use reference::vectors::commands::{CUT_BOOKS, PAGES, REFUSALS};
use reference::vectors::commands::{EMPTY_EXPORTS, EXPORTS, EXPORT_REFUSALS, FILLED_BOOKS};
use reference::vectors::fillers::filled;
use reference::vectors::pages::{self, Shown};
use reference::vectors::WHOLE_CASE;

fn words(words: &[&[u8]]) -> Vec<Vec<u8>> {
    words.iter().map(|word| word.to_vec()).collect()
}

#[test]
fn commands_by_hand() {
    for (command, expected) in PAGES.iter().chain(REFUSALS) {
        assert_eq!(output(&words(command), &WHOLE_CASE), *expected, "{command:?}");
    }
}

#[test]
fn exports_by_hand() {
    for (commands, expected) in
        [(EXPORTS, whole_case()), (EMPTY_EXPORTS, empty()), (EXPORT_REFUSALS, b"11 0\n".to_vec())]
    {
        for command in commands {
            assert_eq!(output(&words(command), &WHOLE_CASE), expected, "{command:?}");
            for &(length, refusal) in CUT_BOOKS {
                assert_eq!(output(&words(command), &WHOLE_CASE[..length]), refusal, "{command:?}");
            }
        }
    }
}

/// The longest file that there is room for, one block more, and too many blocks.
#[test]
fn the_longest_exports() {
    let written = |(mondays, others), count| {
        let command = words(&[b"4822", count, b"last"]);
        output(&command, &crowded(mondays, others).bytes)
    };
    assert_eq!(written((1_021, 0), b"8").len(), 65_536);
    assert_eq!(written((1_021, 1), b"8"), b"12 0\n");
    assert_eq!(written((1_021, 0), b"366"), b"12 0\n");
    assert_eq!(written((1_257, 40), b"366"), b"12 0\n");
    assert_eq!(written((1_257, 41), b"366"), b"13 0\n");
    assert_eq!(written((1_257, 41), b"367"), b"11 0\n");
}

#[test]
fn the_book_comes_first() {
    for (command, _) in PAGES.iter().chain(REFUSALS) {
        for &(length, expected) in CUT_BOOKS {
            assert_eq!(output(&words(command), &WHOLE_CASE[..length]), expected, "{command:?}");
        }
        assert_eq!(output(&words(command), &[0; 65_536]), b"1 0\n");
        assert_eq!(output(&words(command), &[&WHOLE_CASE[..], b"\n"].concat()), b"9 33\n");
    }
}

#[test]
fn filled_books() {
    for (command, expected) in PAGES.iter().chain(REFUSALS) {
        assert_eq!(output(&words(command), &filled(95)), *expected, "{command:?}");
    }
    for command in EXPORTS {
        assert_eq!(output(&words(command), &filled(95)), whole_case(), "{command:?}");
    }
    for (after, expected) in FILLED_BOOKS {
        let book = [&WHOLE_CASE[..], after].concat();
        for command in [PAGES[0].0, EXPORTS[0], REFUSALS[0].0] {
            assert_eq!(output(&words(command), &book), *expected, "{after:?}");
        }
    }
}

#[test]
fn pages_by_hand() {
    for Shown { book, day, choice, page } in pages::all() {
        let day = day.to_string().into_bytes();
        let word: &[u8] = if choice == ShortMonth::Last { b"last" } else { b"skip" };
        assert_eq!(output(&[day.clone(), word.to_vec()], &book), page);
        assert_eq!(output(&[day], &book), b"11 0\n", "the word must be there");
    }
}

#[test]
fn long_numbers() {
    for length in [100, 10_000, 131_071] {
        let zeros = vec![b'0'; length - 4];
        let last = |number| output(&[number, b"last".to_vec()], &WHOLE_CASE);
        assert_eq!(last([&zeros[..], b"4822"].concat()), b"1993-03-15 Mon 1\n10:00-11:00 Dep\n");
        assert_eq!(last([b"4822", &zeros[..]].concat()), b"11 0\n");
        assert_eq!(last([&zeros[..], b"482x"].concat()), b"11 0\n");
    }
}
