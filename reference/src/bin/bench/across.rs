//! Small calls once more, with the reference behind the same C interface (answers as structs, bytes as a pointer and a
//! length) and, as the other way, called from Rust: all three by one loop, so that only the interface differs.

use super::chains::several_days;
use super::writings::{lent, SETTINGS};
use super::{again, hidden, kept, row, Cells, Row};
use apptbook::raw::book::{BookAnswer, RecordAnswer};
use apptbook::raw::calendar::DescriptorAnswer;
use apptbook::raw::days::DayAnswer;
use apptbook::raw::pages::CountAnswer;
use apptbook::raw::writer::WriterAnswer;
use apptbook::raw::{book, calendar, chains, days, writer};
use reference::across_c::*;
use reference::answers::{settings_of, state_of};
use reference::day_chains::DayChains;
use reference::vectors::calendars::whole_case;
use reference::vectors::WHOLE_CASE;
use std::hint::black_box;

const CALLS: usize = 20;

/// Three ways over the same input: proved, the reference across C, the reference from Rust.
fn each<I: Copy + 'static, O: 'static, P: 'static>(
    call: &'static str,
    case: &'static str,
    input: fn() -> I,
    proved: impl Fn(I) -> O + Copy + 'static,
    across: impl Fn(I) -> O + Copy + 'static,
    from_rust: fn(I) -> P,
) -> Row {
    row(call, case, CALLS, move || {
        let input = input();
        let runs = [again(input, proved), again(input, across), again(input, hidden(from_rust))];
        Cells { runs, size: None }
    })
}

fn on_days() -> Vec<Row> {
    let by_plain = black_box(calendar_of_psion as extern "C" fn(u16) -> DayAnswer);
    let back = black_box(psion_of_calendar as extern "C" fn(u16) -> DayAnswer);
    let (there, here) = (reference::days::calendar_of_psion, reference::days::psion_of_calendar);
    let proved = |day| days::calendar_of_psion(day);
    let proved_back = |day| days::psion_of_calendar(day);
    vec![
        each("calendar_of_psion", "both across C", || 8_474, proved, move |day| by_plain(day), there),
        each("psion_of_calendar", "both across C", || 4_822, proved_back, move |day| back(day), here),
    ]
}

fn on_files() -> Vec<Row> {
    let by_record = black_box(record as unsafe extern "C" fn(*const u8, usize, usize) -> RecordAnswer);
    let by_reading = black_box(read_calendar as unsafe extern "C" fn(*const u8, usize) -> CountAnswer);
    let by_day = black_box(calendar_day as unsafe extern "C" fn(*const u8, usize, usize) -> DescriptorAnswer);
    let one = move |file: &[u8]| unsafe { by_record(file.as_ptr(), file.len(), 0) };
    let all = move |file: &[u8]| unsafe { by_reading(file.as_ptr(), file.len()) };
    let first = move |file: &[u8]| unsafe { by_day(file.as_ptr(), file.len(), 0) };
    let case: fn() -> &'static [u8] = || &WHOLE_CASE;
    let exported: fn() -> &'static [u8] = || kept(whole_case());
    vec![
        each(
            "record",
            "of the case, both across C",
            case,
            |file| book::record(file, 0),
            one,
            |file| reference::book::record(file, 0),
        ),
        each("read_calendar", "the case, both across C", exported, calendar::read_calendar, all, |file| {
            reference::calendar::read_calendar(file)
        }),
        each(
            "calendar_day",
            "of the case, both across C",
            exported,
            |file| calendar::calendar_day(file, 0),
            first,
            |file| reference::calendar::calendar_day(file, 0),
        ),
    ]
}

fn on_chains() -> Vec<Row> {
    let by_plain = black_box(check_chains as CheckChains);
    let across = move |lent: &DayChains| {
        // SAFETY: it only reads what it is lent.
        lent.lent_to(|table, previous, next, kinds, minutes| unsafe {
            lent_to(by_plain, table, [previous, next, kinds, minutes])
        })
    };
    let proved = |lent: &DayChains| lent.lent_to(chains::check_chains);
    let from_rust = |lent: &DayChains| lent.lent_to(reference::chains::check_chains);
    let none: fn() -> &'static DayChains = || kept(several_days(0, 0));
    let one: fn() -> &'static DayChains = || kept(several_days(1, 1));
    vec![
        each("check_chains", "no record, both across C", none, proved, across, from_rust),
        each("check_chains", "1 record, both across C", one, proved, across, from_rust),
    ]
}

fn on_buffers() -> Vec<Row> {
    let opening = black_box(open as unsafe extern "C" fn(BookAnswer, *mut u8, usize) -> WriterAnswer);
    let closing = black_box(close as unsafe extern "C" fn(WriterAnswer, *mut u8, usize) -> WriterAnswer);
    let (plain_open, _, plain_close) = super::writings::hidden_calls();
    vec![
        row("open", "both across C", CALLS, move || {
            let across = lent(SETTINGS, move |settings, buffer| unsafe {
                opening(settings, buffer.as_mut_ptr(), buffer.len())
            });
            let from_rust = lent(settings_of(SETTINGS), plain_open);
            Cells { runs: [lent(SETTINGS, writer::open), across, from_rust], size: None }
        }),
        row("close", "both across C", CALLS, move || {
            let state = writer::open(SETTINGS, &mut [0; 15]);
            let across = lent(state, move |state, buffer| unsafe {
                closing(state, buffer.as_mut_ptr(), buffer.len())
            });
            let from_rust = lent(state_of(state), plain_close);
            Cells { runs: [lent(state, writer::close), across, from_rust], size: None }
        }),
    ]
}

pub fn rows() -> Vec<Row> {
    [on_days(), on_files(), on_chains(), on_buffers()].into_iter().flatten().collect()
}
