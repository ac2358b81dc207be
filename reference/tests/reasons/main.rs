//! The proved reasons against the plain ones: every field of every answer, refusals too. And against the library's own
//! pages: a record is on a page just where its reason says so, and its line is moved just where its reason is.

mod by_hand;
mod every_rule;
mod random;

use apptbook::raw::pages::{self, FALLS_MOVED, FALLS_NOT, FALLS_ON_ITS_DAY};
use apptbook::raw::reasons::{self as proved, MOVED, OWN_DAY};
use reference::answers::IntoAnswer;
use reference::pages::{ShortMonth, CHOICES};
use reference::reasons as plain;
use reference::refusal::Refusal;

/// How often each number was given, from 0 on.
type Counts = [usize; 11];

/// The records of a day's page, and which of them are moved, by the library.
fn listed(file: &[u8], day: u16, choice: ShortMonth) -> Vec<(usize, bool)> {
    let lines = 0..pages::page_lines(file, day, choice).count;
    let line = |number| pages::page_line(file, day, choice, number);
    lines.map(line).map(|line| (line.record, line.moved)).collect()
}

/// Some records of a right book on a day, under both choices; counts their reasons.
fn compare_day(file: &[u8], records: impl Iterator<Item = usize> + Clone, day: u16, counts: &mut Counts) {
    for choice in CHOICES {
        let lines = listed(file, day, choice);
        for record in records.clone() {
            let show = || format!("record {record}, day {day}, {choice:?}, of {file:?}");
            let answer = proved::why(file, record, day, choice);
            assert_eq!(answer, plain::why(file, record, day, choice).answer(), "{}", show());
            let (shown, falls) = match answer.reason {
                OWN_DAY => (Some(false), FALLS_ON_ITS_DAY),
                MOVED => (Some(true), FALLS_MOVED),
                _ => (None, FALLS_NOT),
            };
            let line = lines.iter().find(|line| line.0 == record);
            assert_eq!(line.map(|line| line.1), shown, "page, {}", show());
            assert_eq!(pages::falls_on(file, record, day, choice).falls, falls, "falls, {}", show());
            counts[usize::from(answer.reason)] += 1;
        }
    }
}

fn is_refused(file: &[u8], record: usize, day: u16, refusal: Refusal) {
    for choice in CHOICES {
        let answer = proved::why(file, record, day, choice);
        assert_eq!(answer, Err(refusal).answer(), "record {record}, day {day}, {choice:?}, of {file:?}");
    }
}
