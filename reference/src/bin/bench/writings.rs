//! Writing: each call by itself, and whole books.

use super::{again, kept, row, Cells, Row, Run};
use apptbook::raw::book::BookAnswer;
use apptbook::raw::writer as proved;
use reference::answers::{entry_of, settings_of, state_of};
use reference::book::{Settings, LONGEST};
use reference::books::{letters, long, small, Draft};
use reference::refusal::Refusal;
use reference::rng::Rng;
use reference::writer::{self as plain, NewRecord, Writer};
use reference::writings::Item;
use std::cell::RefCell;
use std::hint::black_box;

const CALLS: usize = 20;

pub const SETTINGS: BookAnswer = BookAnswer {
    number: 0,
    place: 0,
    records: 0,
    start: 480,
    granularity: 30,
    lead: 5,
    alarm: true,
    carry_forward: false,
};

/// Dated records to be added, with a text of one byte.
fn small_ones(count: usize) -> &'static [Item] {
    let mut rng = Rng::new(1);
    let mut one = || Item::new(&Draft { text: letters(1, &mut rng), ..small(1, &mut rng) });
    kept((0..count).map(|_| one()).collect::<Vec<_>>())
}

/// With texts of 27 bytes and notes of 440.
fn long_ones(count: usize) -> &'static [Item] {
    let mut rng = Rng::new(1);
    kept((0..count).map(|_| Item::new(&long(1, &mut rng))).collect::<Vec<_>>())
}

type Open = fn(Settings, &mut [u8]) -> Result<Writer, Refusal>;
type Add = fn(Writer, &mut [u8], NewRecord) -> Result<Writer, Refusal>;
type Close = fn(Writer, &mut [u8]) -> Result<Writer, Refusal>;

pub fn hidden_calls() -> (Open, Add, Close) {
    (black_box(plain::open), black_box(plain::add), black_box(plain::close))
}

/// Lends the same buffer to each call.
pub fn lent<I: Copy + 'static, O>(input: I, call: impl Fn(I, &mut [u8]) -> O + 'static) -> Option<Run> {
    let buffer = RefCell::new(vec![0; LONGEST]);
    again(input, move |input| call(input, &mut buffer.borrow_mut()))
}

fn opening() -> Cells {
    let open = hidden_calls().0;
    let by_plain = lent(settings_of(SETTINGS), move |settings, buffer| open(settings, buffer).expect("room"));
    Cells { runs: [lent(SETTINGS, proved::open), by_plain, None], size: None }
}

/// To a book that was just opened.
fn adding(item: &'static Item) -> Cells {
    let add = hidden_calls().1;
    let state = proved::open(SETTINGS, &mut [0; 15]);
    let by_proved =
        lent(item, move |item, buffer| proved::add(state, buffer, item.record, &item.text, &item.note));
    let record = NewRecord {
        flag: item.record.flag,
        entry: entry_of(item.record),
        text: &item.text,
        note: &item.note,
    };
    let by_plain = lent(record, move |record, buffer| add(state_of(state), buffer, record).expect("room"));
    Cells { runs: [by_proved, by_plain, None], size: Some((item.bytes.len(), "byte written")) }
}

fn closing() -> Cells {
    let close = hidden_calls().2;
    let state = proved::open(SETTINGS, &mut [0; 15]);
    let by_plain = lent(state_of(state), move |state, buffer| close(state, buffer).expect("room"));
    Cells { runs: [lent(state, proved::close), by_plain, None], size: None }
}

/// A call here is a whole book: open, all adds and close.
fn whole(items: &'static [Item]) -> Cells {
    let runs = [lent(items, by_proved), lent(items, by_plain), None];
    Cells { runs, size: Some((by_plain(items, &mut [0; LONGEST]), "byte written")) }
}

fn by_proved(items: &[Item], buffer: &mut [u8]) -> usize {
    let mut state = proved::open(SETTINGS, buffer);
    for Item { record, text, note, .. } in items {
        state = proved::add(state, buffer, *record, text, note);
    }
    let state = proved::close(state, buffer);
    assert_eq!(state.number, 0);
    state.used
}

fn by_plain(items: &[Item], buffer: &mut [u8]) -> usize {
    let (open, add, close) = hidden_calls();
    let write = |buffer: &mut [u8]| {
        let mut state = open(settings_of(SETTINGS), buffer)?;
        for Item { record, text, note, .. } in items {
            let record = NewRecord { flag: record.flag, entry: entry_of(*record), text, note };
            state = add(state, buffer, record)?;
        }
        close(state, buffer)
    };
    write(buffer).expect("room").used
}

pub fn rows() -> Vec<Row> {
    vec![
        row("open", "12 bytes", CALLS, opening),
        row("add", "a record of 16 bytes", CALLS, || adding(&small_ones(1)[0])),
        row("add", "a record of 482 bytes", CALLS, || adding(&long_ones(1)[0])),
        row("close", "3 bytes", CALLS, closing),
        row("open, add, close", "4,000 small records", CALLS, || whole(small_ones(4_000))),
        row("open, add, close", "135 long records", CALLS, || whole(long_ones(135))),
    ]
}
