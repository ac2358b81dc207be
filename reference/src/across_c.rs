//! Some calls of the reference behind the C interface of the proved library, for the bench: here and not there, so that the
//! compiler can put the reference's own code into them.

use crate::answers::{settings_of, state_of, writer_answer, IntoAnswer};
use crate::writer::Writer;
use apptbook::raw::book::{BookAnswer, RecordAnswer};
use apptbook::raw::calendar::DescriptorAnswer;
use apptbook::raw::days::DayAnswer;
use apptbook::raw::pages::CountAnswer;
use apptbook::raw::writer::WriterAnswer;
use std::slice;

pub extern "C" fn calendar_of_psion(day: u16) -> DayAnswer {
    crate::days::calendar_of_psion(day).answer()
}

pub extern "C" fn psion_of_calendar(day: u16) -> DayAnswer {
    crate::days::psion_of_calendar(day).answer()
}

/// # Safety
/// The place and the length are those of a slice, which is lent to no one else if it is written to.
pub unsafe extern "C" fn record(file: *const u8, len: usize, record: usize) -> RecordAnswer {
    let file = unsafe { slice::from_raw_parts(file, len) };
    crate::book::record(file, record).answer()
}

/// # Safety
/// The place and the length are those of a slice, which is lent to no one else if it is written to.
pub unsafe extern "C" fn open(settings: BookAnswer, buffer: *mut u8, len: usize) -> WriterAnswer {
    let buffer = unsafe { slice::from_raw_parts_mut(buffer, len) };
    writer_answer(crate::writer::open(settings_of(settings), buffer), Writer { used: 0, closed: false })
}

/// # Safety
/// The place and the length are those of a slice, which is lent to no one else if it is written to.
pub unsafe extern "C" fn close(state: WriterAnswer, buffer: *mut u8, len: usize) -> WriterAnswer {
    let buffer = unsafe { slice::from_raw_parts_mut(buffer, len) };
    writer_answer(crate::writer::close(state_of(state), buffer), state_of(state))
}

/// # Safety
/// The place and the length are those of a slice, which is lent to no one else if it is written to.
pub unsafe extern "C" fn read_calendar(file: *const u8, len: usize) -> CountAnswer {
    let file = unsafe { slice::from_raw_parts(file, len) };
    crate::calendar::read_calendar(file).answer()
}

/// # Safety
/// The place and the length are those of a slice, which is lent to no one else if it is written to.
pub unsafe extern "C" fn calendar_day(file: *const u8, len: usize, number: usize) -> DescriptorAnswer {
    let file = unsafe { slice::from_raw_parts(file, len) };
    crate::calendar::calendar_day(file, number).answer()
}

/// Table, previous and next records, kinds and minutes, each as a pointer and a length.
pub type CheckChains = unsafe extern "C" fn(
    *const u8,
    usize,
    *const u16,
    usize,
    *const u16,
    usize,
    *const u16,
    usize,
    *const u16,
    usize,
) -> CountAnswer;

/// # Safety
/// The call only reads what it is lent.
pub unsafe fn lent_to(call: CheckChains, table: &[u8], arrays: [&[u16]; 4]) -> CountAnswer {
    let [previous, next, kinds, minutes] = arrays.map(|array| (array.as_ptr(), array.len()));
    // SAFETY: the slices' items are there.
    unsafe {
        call(
            table.as_ptr(),
            table.len(),
            previous.0,
            previous.1,
            next.0,
            next.1,
            kinds.0,
            kinds.1,
            minutes.0,
            minutes.1,
        )
    }
}

/// # Safety
/// Each place and the length behind it are those of a slice.
#[allow(clippy::too_many_arguments)]
pub unsafe extern "C" fn check_chains(
    table: *const u8,
    table_len: usize,
    previous: *const u16,
    previous_len: usize,
    next: *const u16,
    next_len: usize,
    kinds: *const u16,
    kinds_len: usize,
    minutes: *const u16,
    minutes_len: usize,
) -> CountAnswer {
    let table = unsafe { slice::from_raw_parts(table, table_len) };
    let previous = unsafe { slice::from_raw_parts(previous, previous_len) };
    let next = unsafe { slice::from_raw_parts(next, next_len) };
    let kinds = unsafe { slice::from_raw_parts(kinds, kinds_len) };
    let minutes = unsafe { slice::from_raw_parts(minutes, minutes_len) };
    crate::chains::check_chains(table, previous, next, kinds, minutes).answer()
}
