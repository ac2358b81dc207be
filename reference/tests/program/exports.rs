//! Two numbers and the word: an export.

use super::{compare, run, run_slowly};
use reference::books::{book_of_span, crowded, Span};
use reference::program::output;
use reference::rng::Rng;
use reference::vectors::calendars::{empty, whole_case};
use reference::vectors::commands::{CUT_BOOKS, EMPTY_EXPORTS, EXPORTS, EXPORT_REFUSALS};
use reference::vectors::WHOLE_CASE;

fn words(words: &[&[u8]]) -> Vec<Vec<u8>> {
    words.iter().map(|word| word.to_vec()).collect()
}

#[test]
fn exports_by_hand() {
    for (commands, file) in
        [(EXPORTS, whole_case()), (EMPTY_EXPORTS, empty()), (EXPORT_REFUSALS, b"11 0\n".to_vec())]
    {
        for command in commands {
            assert_eq!(run(&words(command), &WHOLE_CASE), file, "{command:?}");
        }
    }
    for &(length, expected) in CUT_BOOKS {
        assert_eq!(run(&words(EXPORTS[0]), &WHOLE_CASE[..length]), expected);
        assert_eq!(run(&words(EXPORT_REFUSALS[0]), &WHOLE_CASE[..length]), expected);
    }
}

#[test]
fn random_spans() {
    let mut rng = Rng::for_test("random_spans");
    for _ in 0..1_000 {
        let span = Span::random(&mut rng);
        let records = rng.within(0..=24);
        let book = book_of_span(span, records, &mut rng).bytes;
        let number = |number: u16, rng: &mut Rng| format!("{number:00$}", rng.within(1..=9)).into_bytes();
        let mut words = vec![number(span.first, &mut rng), number(span.count, &mut rng)];
        words.push(rng.pick(&["skip", "last"]).into());
        compare(&words, &book);
    }
}

/// The longest file that there is room for, one block more, and too many blocks.
#[test]
fn the_longest_exports() {
    for (mondays, others, count, expected) in [
        (1_021, 0, "8", 65_536),
        (1_021, 1, "8", 5),
        (1_021, 0, "366", 5),
        (1_257, 40, "366", 5),
        (1_257, 41, "366", 5),
        (1_257, 41, "367", 5),
    ] {
        let command = words(&[b"4822", count.as_bytes(), b"last"]);
        let book = crowded(mondays, others).bytes;
        let written = compare(&command, &book);
        assert_eq!(written.len(), expected);
        assert!(run_slowly(&command, book.chunks(999)) == output(&command, &book));
    }
}

/// Leading zeros up to 131,071 bytes, in both numbers.
#[test]
fn long_numbers() {
    for length in [64, 65_536, 131_071] {
        let number = |digits: &str| [vec![b'0'; length - digits.len()], digits.as_bytes().to_vec()].concat();
        for count in ["1", "366", "367"] {
            compare(&[number("4822"), number(count), b"last".to_vec()], &WHOLE_CASE);
            compare(&[number("4822"), count.as_bytes().to_vec(), b"skip".to_vec()], &WHOLE_CASE);
        }
    }
}
