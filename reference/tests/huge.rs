//! Lengths that more than 32 bits hold. Of the bytes lent, only the first have memory; the rest are zeros that cannot be
//! written to.

use apptbook::raw::{book, calendar, chains, export, pages, reasons, writer};
use reference::answers::IntoAnswer;
use reference::chains::NONE;
use reference::pages::CHOICES;
use reference::refusal::Refusal;
use reference::vectors::{calendars, WHOLE_CASE};
use std::ffi::c_void;
use std::{ptr, slice};

const HUGE: usize = 1 << 32;
const FRONT: usize = 1 << 16;
const READ: i32 = 1;
const READ_AND_WRITE: i32 = 3;
const PRIVATE_AND_ANONYMOUS_AND_NOT_RESERVED: i32 = 0x4022;

unsafe extern "C" {
    fn mmap(at: *mut c_void, length: usize, protection: i32, flags: i32, fd: i32, offset: i64)
        -> *mut c_void;
    fn mprotect(at: *mut c_void, length: usize, protection: i32) -> i32;
}

/// So many bytes that begin with these; only the first 65,536 can be written to.
fn lent(front: &[u8], length: usize) -> &'static mut [u8] {
    // SAFETY: new pages, which nothing else knows.
    let at = unsafe { mmap(ptr::null_mut(), length, READ, PRIVATE_AND_ANONYMOUS_AND_NOT_RESERVED, -1, 0) };
    assert!(at as isize != -1, "no {length} bytes of address space");
    // SAFETY: they are mapped, and no reference to them is alive.
    assert_eq!(unsafe { mprotect(at, FRONT, READ_AND_WRITE) }, 0);
    // SAFETY: mapped to the end of the process. None writes behind the first ones.
    let bytes = unsafe { slice::from_raw_parts_mut(at.cast(), length) };
    bytes[..front.len()].copy_from_slice(front);
    bytes
}

/// A right book and more, up to a length whose low 16 or 32 bits are the book's own length.
#[test]
fn huge_books() {
    let refusal = Refusal { number: 1, place: 0 };
    let file = &*lent(&WHOLE_CASE, 2 * HUGE + 33);
    for length in [FRONT + 33, HUGE, HUGE + 33, 2 * HUGE + 33] {
        let file = &file[..length];
        assert_eq!(book::read_book(file), Err(refusal).answer());
        assert_eq!(book::record(file, 0), Err(refusal).answer());
        assert_eq!(book::note_lines(file, 0), Err(refusal).answer());
        assert_eq!(book::note_line(file, 0, 0), Err(refusal).answer());
        for choice in CHOICES {
            assert_eq!(pages::falls_on(file, 0, 4_822, choice), Err(refusal).answer());
            assert_eq!(reasons::why(file, 0, 4_822, choice), Err(refusal).answer());
            assert_eq!(pages::next_occurrence(file, 0, 4_822, choice), Err(refusal).answer());
            assert_eq!(pages::page_lines(file, 4_822, choice), Err(refusal).answer());
            assert_eq!(pages::page_line(file, 4_822, choice, 0), Err(refusal).answer());
            assert_eq!(pages::page_length(file, 4_822, choice), Err(refusal).answer());
            assert_eq!(pages::print_page(file, 4_822, choice, &mut [0; 99]), Err(refusal).answer());
            assert_eq!(export::export(file, 4_822, 1, choice, &mut [0; 999]), Err(refusal).answer());
        }
    }
}

#[test]
fn huge_calendar_files() {
    let refusal = Refusal { number: 20, place: 0 };
    let file = &*lent(&calendars::whole_case(), HUGE + 192);
    for length in [HUGE, HUGE + 192] {
        let file = &file[..length];
        assert_eq!(calendar::read_calendar(file), Err(refusal).answer());
        assert_eq!(calendar::calendar_day(file, 0), Err(refusal).answer());
        assert_eq!(calendar::calendar_appointments(file, 4_822), Err(refusal).answer());
        assert_eq!(calendar::calendar_appointment(file, 4_822, 0), Err(refusal).answer());
    }
}

/// Room whose low 32 bits would be too little.
#[test]
fn huge_buffers() {
    let choice = CHOICES[0];
    let page = b"1993-03-15 Mon 1\n10:00-11:00 Dep\n";
    let buffer = lent(&[0xEE; 300], HUGE + 1);
    assert_eq!(pages::print_page(&WHOLE_CASE, 4_822, choice, buffer).count, page.len());
    assert_eq!(buffer[..page.len()], *page);
    assert_eq!(export::export(&WHOLE_CASE, 4_822, 1, choice, buffer).count, 192);
    assert_eq!(buffer[..192], calendars::whole_case());
    let state = writer::open(book::read_book(&WHOLE_CASE), buffer);
    assert_eq!((state.number, state.used), (0, 12));
    let state = writer::add(state, buffer, book::record(&WHOLE_CASE, 0), b"Dep", b"");
    assert_eq!((state.number, state.used), (0, 30));
    let state = writer::close(state, buffer);
    assert_eq!((state.number, state.used, state.closed), (0, 33, true));
    assert_eq!(buffer[..33], WHOLE_CASE);
    assert!(buffer[192..300].iter().all(|&byte| byte == 0xEE));
}

/// Text and note whose low 32 bits would be right lengths.
#[test]
fn huge_texts() {
    let bytes = &*lent(b"Dep", HUGE + 3);
    let mut buffer = [0xEE; 600];
    let state = writer::open(book::read_book(&WHOLE_CASE), &mut buffer);
    let record = book::record(&WHOLE_CASE, 0);
    for (text, note, number) in [(HUGE + 3, 0, 6), (HUGE, 0, 6), (3, HUGE + 3, 8), (3, HUGE, 8), (3, 3, 0)] {
        let before = buffer;
        let answer = writer::add(state, &mut buffer, record, &bytes[..text], &bytes[..note]);
        assert_eq!((answer.number, answer.place), (number, 0), "text of {text}, note of {note}");
        assert_eq!(buffer == before, number != 0);
    }
}

/// A right table of one day.
const TABLE: [u8; 10] = [93, 3, 15, 0, 0, 0, 0, 0, 255, 255];

/// Arrays whose low 32 bits, or low 16 bits, would be right lengths.
#[test]
fn huge_arrays() {
    let bytes = &*lent(&NONE.to_le_bytes(), 2 * (HUGE + 1));
    // SAFETY: any bytes are numbers.
    let (_, numbers, _) = unsafe { bytes.align_to::<u16>() };
    assert_eq!((numbers.len(), numbers[0], numbers[1]), (HUGE + 1, NONE, 0));
    let refused = Err(Refusal { number: 30, place: 0 }).answer();
    for length in [FRONT + 1, HUGE, HUGE + 1] {
        for array in 0..4 {
            let mut arrays = [&numbers[..1]; 4];
            arrays[array] = &numbers[..length];
            let [previous, next, kinds, minutes] = arrays;
            let answer = chains::check_chains(&TABLE, previous, next, kinds, minutes);
            assert_eq!(answer, refused, "{length} in array {array}");
        }
        let all = &numbers[..length];
        assert_eq!(chains::check_chains(&TABLE, all, all, all, all), refused, "{length}");
    }
    let one = &numbers[..1];
    assert_eq!(chains::check_chains(&TABLE, one, one, &[0], &[0]), Ok(1).answer());
}

/// The right table and zeros behind it: its last entry stands before others.
#[test]
fn huge_tables() {
    let table = &*lent(&TABLE, HUGE + 10);
    for length in [FRONT + 10, HUGE, HUGE + 10] {
        let answer = chains::check_chains(&table[..length], &[NONE], &[NONE], &[0], &[0]);
        assert_eq!(answer, Err(Refusal { number: 31, place: 1 }).answer(), "{length}");
    }
}

/// A table of every date that three bytes hold, all with record 0. A last entry makes it right, but for the heads.
#[test]
fn every_date() {
    let all = 0..1 << 24;
    let entry = |date: u32| {
        let [_, first, second, third] = date.to_be_bytes();
        [first, second, third, 0, 0]
    };
    let mut table: Vec<u8> = all.flat_map(entry).collect();
    let check = |table: &[u8]| chains::check_chains(table, &[NONE], &[NONE], &[0], &[0]);
    assert_eq!(check(&table), Err(Refusal { number: 31, place: 16_777_215 }).answer());
    table.extend([0, 0, 0, 255]);
    assert_eq!(check(&table), Err(Refusal { number: 31, place: 16_777_216 }).answer());
    table.push(255);
    assert_eq!(check(&table), Err(Refusal { number: 32, place: 1 }).answer());
    table.extend([0, 0, 0, 255, 255]);
    assert_eq!(check(&table), Err(Refusal { number: 31, place: 16_777_216 }).answer());
}
