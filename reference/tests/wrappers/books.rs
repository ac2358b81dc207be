//! Every call that reads a book.

use super::{same, same_buffer};
use apptbook::raw::book::{self as raw_book, BookAnswer, RecordAnswer};
use apptbook::raw::export as raw_export;
use apptbook::raw::pages as raw;
use apptbook::raw::reasons as raw_reasons;
use apptbook::{Book, Date, Entry, Falls, Occurrence, PageLine, Reason, Record, Rule, Settings, Times};
use reference::answers::entry_of;
use reference::fuzz::{numbers, Tally};
use reference::pages::ShortMonth;
use reference::records;
use reference::rng::Rng;
use std::ptr;

pub fn settings(answer: BookAnswer) -> Settings {
    let BookAnswer { start, granularity, lead, alarm, carry_forward, .. } = answer;
    Settings { start, granularity, lead, alarm, carry_forward }
}

/// By way of the reference's own entries. None where the kind is none.
pub fn entry(answer: RecordAnswer) -> Option<Entry> {
    let date = |date: reference::days::Date| Date { year: date.year, month: date.month, day: date.day };
    let times = |times: records::Times| Times { start: times.start, end: times.end, lead: times.lead };
    Some(match entry_of(answer)? {
        records::Entry::Dated { date: on, times: at } => Entry::Dated { date: date(on), times: times(at) },
        records::Entry::Repeated { rule, first, last, times: at } => {
            let rule = match rule {
                records::Rule::Weekly { weekday } => Rule::Weekly { weekday },
                records::Rule::MonthlyByDate { day } => Rule::MonthlyByDate { day },
                records::Rule::MonthlyByPosition { week, weekday } => {
                    Rule::MonthlyByPosition { week, weekday }
                }
                records::Rule::Yearly { month, day } => Rule::Yearly { month, day },
            };
            Entry::Repeated { rule, first: date(first), last: date(last), times: times(at) }
        }
        records::Entry::ToDo { priority, start, check_off } => {
            Entry::ToDo { priority, start: date(start), check_off: check_off.map(date) }
        }
    })
}

pub fn round(tally: &mut Tally, file: &[u8], rng: &mut Rng) {
    let book = raw_book::read_book(file);
    same!(tally, "read_book", apptbook::read_book(file), book, answer => {
        Book { records: answer.records, settings: settings(answer) }
    });
    let record = numbers::long(book.records, rng);
    reading(tally, file, record, rng);
    let choice = numbers::choice(rng);
    let found = raw::next_occurrence(file, record, 4_822, choice);
    let day = if found.found && rng.one_in(2) { found.day } else { numbers::day(rng) };
    showing(tally, file, record, day, choice, rng);
    writing(tally, file, day, choice, rng);
}

fn reading(tally: &mut Tally, file: &[u8], record: usize, rng: &mut Rng) {
    let part = |at: usize, length: usize| &file[at..at + length];
    let by_raw = raw_book::record(file, record);
    same!(tally, "record", apptbook::record(file, record), by_raw, answer => Record {
        at: answer.at,
        flag: answer.flag,
        entry: entry(answer).expect("a kind"),
        text: part(answer.text_at, answer.text_length),
        note: part(answer.note_at, answer.note_length),
    });
    if let Ok(Record { text, note, .. }) = apptbook::record(file, record) {
        assert!(ptr::eq(text, part(by_raw.text_at, by_raw.text_length)), "the text's place");
        assert!(ptr::eq(note, part(by_raw.note_at, by_raw.note_length)), "the note's place");
    }
    let lines = raw_book::note_lines(file, record);
    same!(tally, "note_lines", apptbook::note_lines(file, record), lines, answer => answer.lines);
    let number = numbers::long(lines.lines, rng);
    let line = apptbook::note_line(file, record, number);
    let by_raw = raw_book::note_line(file, record, number);
    same!(tally, "note_line", line, by_raw, answer => part(answer.at, answer.length));
    assert!(line.is_err() || ptr::eq(line.unwrap(), part(by_raw.at, by_raw.length)), "the line's place");
}

/// In the header's order, from 1 on.
fn reason(number: u16) -> Reason {
    use Reason::*;
    let all = [OwnDay, Moved, IsToDo, BeforeStart, AfterEnd, WrongMonth, MonthTooShort, WrongDay];
    let others = [WrongWeekday, WrongWeek];
    all.into_iter().chain(others).nth(usize::from(number) - 1).expect("a reason")
}

fn showing(tally: &mut Tally, file: &[u8], record: usize, day: u16, choice: ShortMonth, rng: &mut Rng) {
    tally.add("default_last", 0);
    assert_eq!(ShortMonth::default() == ShortMonth::Last, raw::default_last());
    let by_raw = raw::falls_on(file, record, day, choice);
    same!(tally, "falls_on", apptbook::falls_on(file, record, day, choice), by_raw, answer => {
        [Falls::Not, Falls::OnItsDay, Falls::Moved][usize::from(answer.falls)]
    });
    let by_raw = raw_reasons::why(file, record, day, choice);
    same!(tally, "why", apptbook::why(file, record, day, choice), by_raw, answer => reason(answer.reason));
    let next = apptbook::next_occurrence(file, record, day, choice);
    same!(tally, "next_occurrence", next, raw::next_occurrence(file, record, day, choice), answer => {
        Occurrence { day: if answer.found { Some(answer.day) } else { None }, looked: answer.looked }
    });
    let lines = raw::page_lines(file, day, choice);
    same!(tally, "page_lines", apptbook::page_lines(file, day, choice), lines, answer => answer.count);
    let number = numbers::long(lines.count, rng);
    let line = apptbook::page_line(file, day, choice, number);
    let by_raw = raw::page_line(file, day, choice, number);
    let text = &file[by_raw.text_at..by_raw.text_at + by_raw.text_length];
    same!(tally, "page_line", line, by_raw, answer => PageLine {
        record: answer.record,
        text,
        start: answer.start,
        end: answer.end,
        alarm: answer.alarm,
        moved: answer.moved,
    });
    assert!(line.is_err() || ptr::eq(line.unwrap().text, text), "the text's place");
}

fn writing(tally: &mut Tally, file: &[u8], day: u16, choice: ShortMonth, rng: &mut Rng) {
    let length = raw::page_length(file, day, choice);
    same!(tally, "page_length", apptbook::page_length(file, day, choice), length, answer => answer.count);
    let room = rng.pick(&[0, length.count.saturating_sub(1), length.count, length.count + 9]);
    let before = rng.bytes(room);
    let by_safe = |buffer: &mut [u8]| apptbook::print_page(file, day, choice, buffer);
    let by_raw = |buffer: &mut [u8]| raw::print_page(file, day, choice, buffer);
    same_buffer!(tally, "print_page", before, by_safe, by_raw, answer => answer.count);
    let count = rng.pick(&[0, 1, 7, 31, 366, 367]);
    let before = vec![rng.u8(); rng.pick(&[0, 64, 192, 4_000, 200_000])];
    let by_safe = |buffer: &mut [u8]| apptbook::export(file, day, count, choice, buffer);
    let by_raw = |buffer: &mut [u8]| raw_export::export(file, day, count, choice, buffer);
    same_buffer!(tally, "export", before, by_safe, by_raw, answer => answer.count);
}
