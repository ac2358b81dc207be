//! A case asked: its call by its name, its words from the file, and the answer in the file's words.

use apptbook::raw::book::BookAnswer;
use apptbook::raw::pages::{CountAnswer, FallsAnswer, OccurrenceAnswer, PageLineAnswer};
use apptbook::raw::reasons::ReasonAnswer;
use reference::calendar;
use reference::calls::Calls;
use reference::cases::{word, Case};

/// From the file of this request on, answers tell what is moved.
const TELLS_MOVED: u16 = 7;

/// The answer's words as the request's file has them, and nothing of the question is left.
pub fn answer(mut case: Case, request: u16, calls: &Calls) -> String {
    let answer = match case.call {
        "read" => read(&mut case, calls),
        "falls" => falls(&mut case, request, calls),
        "why" => why(&mut case, calls),
        "next" => next(&mut case, calls),
        "page" => page(&mut case, request, calls),
        "line" => line(&mut case, request, calls),
        "print" => print(&mut case, calls),
        "export" => export(&mut case, calls),
        "rewrite" => rewrite(&mut case, calls),
        "chains" => chains(&mut case, calls),
        "program" => program(&mut case, calls),
        call => panic!("{}: unknown call {call}", case.name),
    };
    case.end();
    answer
}

fn refused(number: u32, place: usize) -> String {
    format!("refused {number} {place}")
}

fn read(case: &mut Case, calls: &Calls) -> String {
    match (calls.read_book)(&case.bytes("book")) {
        BookAnswer { number: 0, place: 0, records, start, granularity, alarm, lead, carry_forward } => {
            let (alarm, carry_forward) = (u8::from(alarm), u8::from(carry_forward));
            format!("ok {records} {start} {granularity} {alarm} {lead} {carry_forward}")
        }
        refusal => refused(refusal.number, refusal.place),
    }
}

fn falls(case: &mut Case, request: u16, calls: &Calls) -> String {
    let words = if request < TELLS_MOVED { ["no", "yes", "yes"] } else { ["no", "own", "moved"] };
    let (book, record, day) = (case.bytes("book"), case.number("record"), case.number("day"));
    match (calls.falls_on)(&book, record.into(), day, case.choice(calls.default_choice())) {
        FallsAnswer { number: 0, place: 0, falls } => format!("ok {}", words[usize::from(falls)]),
        refusal => refused(refusal.number, refusal.place),
    }
}

/// From number 1 on.
const REASONS: [&str; 10] = [
    "own-day",
    "moved",
    "to-do",
    "before-start",
    "after-end",
    "wrong-month",
    "month-too-short",
    "wrong-day-of-month",
    "wrong-weekday",
    "wrong-week",
];

fn why(case: &mut Case, calls: &Calls) -> String {
    let (book, record, day) = (case.bytes("book"), case.number("record"), case.number("day"));
    match (calls.why)(&book, record.into(), day, case.choice(calls.default_choice())) {
        ReasonAnswer { number: 0, place: 0, reason } => format!("ok {}", REASONS[usize::from(reason) - 1]),
        ReasonAnswer { number, place, reason } => {
            assert_eq!(reason, 0, "{}: a reason on a refusal", case.name);
            refused(number, place)
        }
    }
}

fn next(case: &mut Case, calls: &Calls) -> String {
    let (book, record, day) = (case.bytes("book"), case.number("record"), case.number("day"));
    match (calls.next_occurrence)(&book, record.into(), day, case.choice(calls.default_choice())) {
        OccurrenceAnswer { number: 0, place: 0, found: true, day, looked } => {
            format!("ok found {day} {looked}")
        }
        OccurrenceAnswer { number: 0, place: 0, found: false, day: 0, looked } => format!("ok none {looked}"),
        refusal => refused(refusal.number, refusal.place),
    }
}

/// A page's line in words.
fn line_words(book: &[u8], line: PageLineAnswer, request: u16) -> String {
    let PageLineAnswer { record, start, end, alarm, moved, text_at, text_length, .. } = line;
    let moved = if request < TELLS_MOVED { "".into() } else { format!("{}:", u8::from(moved)) };
    let text = word(&book[text_at..text_at + text_length]);
    format!(" {record}:{start}:{end}:{}:{moved}{text}", u8::from(alarm))
}

fn line(case: &mut Case, request: u16, calls: &Calls) -> String {
    let (book, day, choice) = (case.bytes("book"), case.number("day"), case.choice(calls.default_choice()));
    match (calls.page_line)(&book, day, choice, case.number("line").into()) {
        line @ PageLineAnswer { number: 0, place: 0, .. } => {
            format!("ok{}", line_words(&book, line, request))
        }
        refusal => refused(refusal.number, refusal.place),
    }
}

fn page(case: &mut Case, request: u16, calls: &Calls) -> String {
    let (book, day, choice) = (case.bytes("book"), case.number("day"), case.choice(calls.default_choice()));
    let count = match (calls.page_lines)(&book, day, choice) {
        CountAnswer { number: 0, place: 0, count } => count,
        refusal => return refused(refusal.number, refusal.place),
    };
    let lines = (0..count).map(|line| {
        let line: PageLineAnswer = (calls.page_line)(&book, day, choice, line);
        assert_eq!((line.number, line.place), (0, 0));
        line_words(&book, line, request)
    });
    format!("ok {count}{}", lines.collect::<String>())
}

/// What a call wrote to such a buffer; the rest of it is to stay as it was.
fn written(room: usize, write: impl FnOnce(&mut [u8]) -> CountAnswer) -> String {
    const BEFORE: u8 = 0xEE;
    let mut buffer = vec![BEFORE; room];
    let CountAnswer { number, place, count } = write(&mut buffer);
    assert!(buffer[count..].iter().all(|&byte| byte == BEFORE), "bytes past the end changed");
    match number {
        0 => format!("ok {}", word(&buffer[..count])),
        _ => refused(number, place),
    }
}

fn print(case: &mut Case, calls: &Calls) -> String {
    let (book, day, choice) = (case.bytes("book"), case.number("day"), case.choice(calls.default_choice()));
    let room = (calls.page_length)(&book, day, choice).count + 9;
    written(room, |buffer| (calls.print_page)(&book, day, choice, buffer))
}

fn export(case: &mut Case, calls: &Calls) -> String {
    let (book, choice) = (case.bytes("book"), case.choice(calls.default_choice()));
    let (first, count) = (case.number("first"), case.number("count"));
    written(calendar::LONGEST, |buffer| (calls.export)(&book, first, count, choice, buffer))
}

fn rewrite(case: &mut Case, calls: &Calls) -> String {
    let book = case.bytes("book");
    match (calls.read_book)(&book) {
        BookAnswer { number: 0, .. } => format!("ok {}", word(&calls.written_again(&book))),
        refusal => refused(refusal.number, refusal.place),
    }
}

fn chains(case: &mut Case, calls: &Calls) -> String {
    let table = case.bytes("table");
    let [previous, next, kinds, minutes] = ["previous", "next", "kinds", "minutes"].map(|key| case.list(key));
    match (calls.check_chains)(&table, &previous, &next, &kinds, &minutes) {
        CountAnswer { number: 0, place: 0, count } => format!("ok {count}"),
        CountAnswer { number, place, .. } => refused(number, place),
    }
}

fn program(case: &mut Case, calls: &Calls) -> String {
    let (words, book) = (case.words("args"), case.bytes("book"));
    format!("ok {}", word(&(calls.program)(&words, &book)))
}
