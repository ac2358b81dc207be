//! Reasons and refusals written out by hand.

use super::{compare_day, is_refused, Counts};
use apptbook::raw::pages::{FALLS_MOVED, FALLS_NOT, FALLS_ON_ITS_DAY};
use apptbook::raw::reasons::{self as proved, ReasonAnswer};
use reference::pages::{Falls, CHOICES};
use reference::reasons::Reason;
use reference::refusal::{Refusal, NO_SUCH_NUMBER, OUT_OF_RANGE};
use reference::vectors::single::{book, Asked};
use reference::vectors::{every_kind, moved, reasons, with_faults, CUTS, FAULTS, SEVERAL_FAULTS, WHOLE_CASE};

/// As the header has them.
const NUMBERS: [(Reason, u16); 10] = [
    (Reason::OwnDay, 1),
    (Reason::Moved, 2),
    (Reason::IsToDo, 3),
    (Reason::BeforeStart, 4),
    (Reason::AfterEnd, 5),
    (Reason::WrongMonth, 6),
    (Reason::MonthTooShort, 7),
    (Reason::WrongDay, 8),
    (Reason::WrongWeekday, 9),
    (Reason::WrongWeek, 10),
];

#[test]
fn reasons_by_hand() {
    let mut counts: Counts = [0; 11];
    for Asked { book, day, answers } in reasons::all() {
        for (choice, reason) in CHOICES.into_iter().zip(answers) {
            let number = NUMBERS.iter().find(|pair| pair.0 == reason).expect("a reason").1;
            let expected = ReasonAnswer { number: 0, place: 0, reason: number };
            assert_eq!(proved::why(&book, 0, day, choice), expected, "{day} {choice:?} {book:?}");
        }
        compare_day(&book, 0..1, day, &mut counts);
    }
    assert!(counts[0] == 0 && counts[1..].iter().all(|&count| count >= 10), "{counts:?}");
}

/// What was written out for the question whether a record falls on a day.
#[test]
fn shown_or_not_by_hand() {
    for Asked { book, day, answers } in moved::all() {
        for (choice, falls) in CHOICES.into_iter().zip(answers) {
            let by_reason = match proved::why(&book, 0, day, choice).reason {
                1 => FALLS_ON_ITS_DAY,
                2 => FALLS_MOVED,
                _ => FALLS_NOT,
            };
            let expected = match falls {
                Falls::Not => FALLS_NOT,
                Falls::OnItsDay => FALLS_ON_ITS_DAY,
                Falls::Moved => FALLS_MOVED,
            };
            assert_eq!(by_reason, expected, "{day} {choice:?} {book:?}");
        }
    }
}

/// Each of its records: on 28 February and 16 March 1993, on 29 February 2000, on the first day and on the last one.
#[test]
fn every_kind_by_hand() {
    let file = every_kind();
    for (day, skip, last) in [
        (0, [1, 4, 4, 9, 4, 3, 3], [1, 4, 4, 9, 4, 3, 3]),
        (4_807, [5, 4, 4, 10, 7, 3, 3], [5, 4, 4, 10, 2, 3, 3]),
        (4_823, [5, 1, 4, 9, 5, 3, 3], [5, 1, 4, 9, 5, 3, 3]),
        (7_364, [5, 1, 7, 9, 5, 3, 3], [5, 1, 2, 9, 5, 3, 3]),
        (43_829, [5, 9, 5, 9, 5, 3, 3], [5, 9, 5, 9, 5, 3, 3]),
    ] {
        for (choice, expected) in CHOICES.into_iter().zip([skip, last]) {
            let given = [0, 1, 2, 3, 4, 5, 6].map(|record| proved::why(&file, record, day, choice).reason);
            assert_eq!(given, expected, "{day} {choice:?}");
        }
        compare_day(&file, 0..7, day, &mut [0; 11]);
    }
}

const RECORDS: [usize; 6] = [0, 1, 6, 7, 1 << 32, usize::MAX];

fn is_always_refused(file: &[u8], refusal: Refusal) {
    for record in RECORDS {
        for day in [0, 4_822, 43_829, 43_830, 65_535] {
            is_refused(file, record, day, refusal);
        }
    }
}

/// Each of the book's own, before all others.
#[test]
fn refused_books() {
    for &(at, bytes, number, place) in FAULTS {
        is_always_refused(&with_faults(&[(at, bytes)], every_kind().len()), Refusal { number, place });
    }
    for &(length, number, place) in CUTS {
        is_always_refused(&every_kind()[..length], Refusal { number, place });
    }
    for &(changes, length, number, place) in SEVERAL_FAULTS {
        is_always_refused(&with_faults(changes, length), Refusal { number, place });
    }
}

/// Then 11, then 10.
#[test]
fn refused_days_and_numbers() {
    for (file, records) in [(every_kind(), 7), (book(&[]), 0), (WHOLE_CASE.to_vec(), 1)] {
        for record in RECORDS {
            for day in [43_830, 43_831, 65_535] {
                is_refused(&file, record, day, OUT_OF_RANGE);
            }
            for day in [0, 4_822, 43_829] {
                is_refused(&file, record.max(records), day, NO_SUCH_NUMBER);
            }
        }
    }
}
