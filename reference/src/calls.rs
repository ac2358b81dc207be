//! The calls on a book and on day chains, the writing calls and the program, by the library and by the reference, with
//! answers of the same form.

use crate::answers::{entry_of, settings_of, state_of, writer_answer, IntoAnswer};
use crate::pages::ShortMonth;
use crate::writer::{NewRecord, Writer};
use crate::{book, chains, export, pages, printed, process, program, reasons, writer};
use apptbook::raw;
use apptbook::raw::book::{BookAnswer, LineAnswer, LinesAnswer, RecordAnswer};
use apptbook::raw::pages::{CountAnswer, FallsAnswer, OccurrenceAnswer, PageLineAnswer};
use apptbook::raw::reasons::ReasonAnswer;
use apptbook::raw::writer::WriterAnswer;

type Add = fn(WriterAnswer, &mut [u8], RecordAnswer, &[u8], &[u8]) -> WriterAnswer;
type CheckChains = fn(&[u8], &[u16], &[u16], &[u16], &[u16]) -> CountAnswer;

pub struct Calls {
    pub name: &'static str,
    pub read_book: fn(&[u8]) -> BookAnswer,
    pub record: fn(&[u8], usize) -> RecordAnswer,
    pub note_lines: fn(&[u8], usize) -> LinesAnswer,
    pub note_line: fn(&[u8], usize, usize) -> LineAnswer,
    pub default_last: fn() -> bool,
    pub falls_on: fn(&[u8], usize, u16, ShortMonth) -> FallsAnswer,
    pub why: fn(&[u8], usize, u16, ShortMonth) -> ReasonAnswer,
    pub next_occurrence: fn(&[u8], usize, u16, ShortMonth) -> OccurrenceAnswer,
    pub page_lines: fn(&[u8], u16, ShortMonth) -> CountAnswer,
    pub page_line: fn(&[u8], u16, ShortMonth, usize) -> PageLineAnswer,
    pub page_length: fn(&[u8], u16, ShortMonth) -> CountAnswer,
    pub print_page: fn(&[u8], u16, ShortMonth, &mut [u8]) -> CountAnswer,
    pub export: fn(&[u8], u16, u16, ShortMonth, &mut [u8]) -> CountAnswer,
    pub open: fn(BookAnswer, &mut [u8]) -> WriterAnswer,
    pub add: Add,
    pub close: fn(WriterAnswer, &mut [u8]) -> WriterAnswer,
    pub check_chains: CheckChains,
    /// A command line and a standard input, and what is written.
    pub program: fn(&[Vec<u8>], &[u8]) -> Vec<u8>,
}

pub const PROVED: Calls = Calls {
    name: "the library",
    read_book: raw::book::read_book,
    record: raw::book::record,
    note_lines: raw::book::note_lines,
    note_line: raw::book::note_line,
    default_last: || raw::pages::default_last(),
    falls_on: raw::pages::falls_on,
    why: raw::reasons::why,
    next_occurrence: raw::pages::next_occurrence,
    page_lines: raw::pages::page_lines,
    page_line: raw::pages::page_line,
    page_length: raw::pages::page_length,
    print_page: raw::pages::print_page,
    export: raw::export::export,
    open: raw::writer::open,
    add: raw::writer::add,
    close: raw::writer::close,
    check_chains: raw::chains::check_chains,
    program: |words, input| process::run(&process::apptbook(), words, input),
};

pub const PLAIN: Calls = Calls {
    name: "the reference",
    read_book: |file| book::read_book(file).answer(),
    record: |file, record| book::record(file, record).answer(),
    note_lines: |file, record| book::note_lines(file, record).answer(),
    note_line: |file, record, line| book::note_line(file, record, line).answer(),
    default_last: || pages::DEFAULT == ShortMonth::Last,
    falls_on: |file, record, day, choice| pages::falls_on(file, record, day, choice).answer(),
    why: |file, record, day, choice| reasons::why(file, record, day, choice).answer(),
    next_occurrence: |file, record, day, choice| pages::next_occurrence(file, record, day, choice).answer(),
    page_lines: |file, day, choice| pages::page_lines(file, day, choice).answer(),
    page_line: |file, day, choice, line| pages::page_line(file, day, choice, line).answer(),
    page_length: |file, day, choice| printed::page_length(file, day, choice).answer(),
    print_page: |file, day, choice, buffer| printed::print_page(file, day, choice, buffer).answer(),
    export: |file, first, count, choice, buffer| export::export(file, first, count, choice, buffer).answer(),
    open: |settings, buffer| writer_answer(writer::open(settings_of(settings), buffer), Writer::default()),
    add: |state, buffer, record, text, note| {
        let new = NewRecord { flag: record.flag, entry: entry_of(record), text, note };
        writer_answer(writer::add(state_of(state), buffer, new), state_of(state))
    },
    close: |state, buffer| writer_answer(writer::close(state_of(state), buffer), state_of(state)),
    check_chains: |table, previous, next, kinds, minutes| {
        chains::check_chains(table, previous, next, kinds, minutes).answer()
    },
    program: program::output,
};

impl Calls {
    /// That of a caller who names none.
    pub fn default_choice(&self) -> ShortMonth {
        if (self.default_last)() {
            ShortMonth::Last
        } else {
            ShortMonth::Skip
        }
    }

    /// Reads a right book and writes it again: the file, and the buffer behind it as it was.
    pub fn written_again(&self, file: &[u8]) -> Vec<u8> {
        const BEFORE: u8 = 0xEE;
        let mut buffer = vec![BEFORE; file.len()];
        let book = (self.read_book)(file);
        let mut state = (self.open)(book, &mut buffer);
        for number in 0..book.records {
            assert_eq!(state.number, 0, "{}, before record {number}", self.name);
            let record = (self.record)(file, number);
            let text = &file[record.text_at..record.text_at + record.text_length];
            let note = &file[record.note_at..record.note_at + record.note_length];
            state = (self.add)(state, &mut buffer, record, text, note);
        }
        state = (self.close)(state, &mut buffer);
        assert_eq!((state.number, state.closed), (0, true), "{}", self.name);
        assert!(buffer[state.used..].iter().all(|&byte| byte == BEFORE), "{}", self.name);
        buffer.truncate(state.used);
        buffer
    }
}
