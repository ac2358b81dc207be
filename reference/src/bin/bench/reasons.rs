//! Why a record is on a day, or why it isn't: the first record or the last one of small and of full books.

use super::pages::{all_moved, full_book, one_day, records, small_book, APRIL_30, DAY};
use super::{again, hidden, kept, row, Cells, Row};
use apptbook::raw::reasons::{self as proved, ReasonAnswer, IS_TO_DO, MONTH_TOO_SHORT, MOVED, OWN_DAY};
use reference::answers::IntoAnswer;
use reference::book;
use reference::pages::ShortMonth::{self, Last, Skip};
use reference::reasons as plain;
use reference::vectors::single::{self, to_do};
use reference::vectors::WHOLE_CASE;

const CALLS: usize = 20;

/// A file, a record's number, a day and a choice.
type Asked = (&'static [u8], usize, u16, ShortMonth);

/// For the book's last record.
fn last(file: &'static [u8], day: u16, choice: ShortMonth) -> Asked {
    (file, records(file) - 1, day, choice)
}

/// As many records as a book can have.
fn most_records() -> &'static [u8] {
    kept(single::book(&to_do([93, 4, 30]).repeat(4_680)))
}

/// The end record's type is unknown.
fn wrong_at_its_end() -> &'static [u8] {
    let mut file = full_book().to_vec();
    let end = file.len() - 3;
    file[end] = 51;
    kept(file)
}

/// `reason`: what is to be answered, where that is known.
fn why(case: &'static str, reason: Option<u16>, asked: fn() -> Asked) -> Row {
    row("why", case, CALLS, move || {
        let asked = asked();
        let by_proved = |(file, record, day, choice): Asked| proved::why(file, record, day, choice);
        let by_plain = hidden(|(file, record, day, choice): Asked| plain::why(file, record, day, choice));
        let answer: ReasonAnswer = by_plain(asked).answer();
        assert_eq!(by_proved(asked), answer);
        assert!(reason.is_none_or(|reason| reason == answer.reason), "{case}: {answer:?}");
        let size = book::read_book(asked.0).ok().map(|book| (book.records, "record"));
        Cells { runs: [again(asked, by_proved), again(asked, by_plain), None], size }
    })
}

pub fn rows() -> Vec<Row> {
    vec![
        why("the case", Some(OWN_DAY), || (&WHOLE_CASE, 0, DAY, Skip)),
        why("12 records", None, || last(small_book(), DAY, Skip)),
        why("full, the first record", None, || (full_book(), 0, DAY, Skip)),
        why("full, the last record", None, || last(full_book(), DAY, Skip)),
        why("full, all on the day", Some(OWN_DAY), || last(one_day(), DAY, Skip)),
        why("full, all moved", Some(MOVED), || last(all_moved(), APRIL_30, Last)),
        why("full, month too short", Some(MONTH_TOO_SHORT), || last(all_moved(), APRIL_30, Skip)),
        why("4,680 to-dos", Some(IS_TO_DO), || last(most_records(), DAY, Skip)),
        why("full, wrong at its end", Some(0), || (wrong_at_its_end(), 0, DAY, Skip)),
    ]
}
