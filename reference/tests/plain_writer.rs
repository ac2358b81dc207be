//! The plain book writer alone: books by hand, and whether the makers of runs know what they make.

use apptbook::raw::book::RecordAnswer;
use reference::answers::{entry_of, settings_of, IntoAnswer};
use reference::book::{self, Settings, LONGEST};
use reference::books::Cases;
use reference::days::Date;
use reference::records::{Entry, Times};
use reference::refusal::Refusal;
use reference::rng::Rng;
use reference::vectors::fillers::{filled, fillers};
use reference::vectors::{every_kind, every_kind_records, EVERY_KIND_WRITTEN, WHOLE_CASE};
use reference::vectors::{ADDINGS, CLOSINGS, OPENINGS};
use reference::writer::{self, NewRecord, Writer};
use reference::writings::{bare, faults, pattern, Call, Item, Run, Runs, MARGIN};
use std::collections::{BTreeMap, BTreeSet};

const SETTINGS: Settings =
    Settings { start: 480, granularity: 30, alarm: true, lead: 5, carry_forward: false };

fn opened(used: usize) -> Writer {
    Writer { used, closed: false }
}

fn closed(used: usize) -> Writer {
    Writer { used, closed: true }
}

fn dated(lead: u16) -> Option<Entry> {
    let times = Times { start: 600, end: 660, lead };
    Some(Entry::Dated { date: Date { year: 1993, month: 3, day: 15 }, times })
}

#[test]
fn the_whole_case() {
    let before = pattern(40);
    let mut bytes = before.clone();
    let buffer = &mut bytes[MARGIN..MARGIN + 40];
    let as_before = |buffer: &[u8], used: usize| {
        assert_eq!(buffer[..used], WHOLE_CASE[..used]);
        assert_eq!(buffer[used..], before[MARGIN + used..MARGIN + 40]);
    };
    assert_eq!(writer::open(SETTINGS, buffer), Ok(opened(12)));
    as_before(buffer, 12);
    let record = NewRecord { flag: true, entry: dated(5), text: b"Dep", note: b"" };
    assert_eq!(writer::add(opened(12), buffer, record), Ok(opened(30)));
    as_before(buffer, 30);
    assert_eq!(writer::close(opened(30), buffer), Ok(closed(33)));
    as_before(buffer, 33);
}

#[test]
fn every_kind_by_hand() {
    let file = every_kind();
    let written = EVERY_KIND_WRITTEN.concat();
    let mut buffer = vec![0xEE; written.len()];
    let settings = book::read_book(&file).expect("a right book").settings;
    let mut state = writer::open(settings, &mut buffer).expect("room");
    for (record, part) in every_kind_records().into_iter().zip(&EVERY_KIND_WRITTEN[1..]) {
        let (flag, entry) = (record.flag, Some(record.entry));
        let record = NewRecord { flag, entry, text: &file[record.text], note: &file[record.note] };
        let used = state.used;
        state = writer::add(state, &mut buffer, record).expect("room");
        assert_eq!(&buffer[used..state.used], *part);
        assert!(buffer[state.used..].iter().all(|&byte| byte == 0xEE));
    }
    assert_eq!(writer::close(state, &mut buffer), Ok(closed(written.len())));
    assert_eq!(buffer, written);
    assert_eq!(bare(&file), written);
}

fn number(result: Result<Writer, Refusal>) -> u32 {
    result.map_or_else(
        |refusal| {
            assert_eq!(refusal.place, 0);
            refusal.number
        },
        |_| 0,
    )
}

/// Makes the call on a buffer of so many bytes, which are to stay as they are where it is refused.
fn numbered(room: usize, call: impl FnOnce(&mut [u8]) -> Result<Writer, Refusal>) -> u32 {
    let mut bytes = pattern(room);
    let number = number(call(&mut bytes[MARGIN..MARGIN + room]));
    assert_eq!(number != 0, bytes == pattern(room));
    number
}

#[test]
fn refusals_by_hand() {
    for &(start, granularity, lead, room, number) in OPENINGS {
        let settings = Settings { start, granularity, lead, ..SETTINGS };
        assert_eq!(numbered(room, |buffer| writer::open(settings, buffer)), number, "{settings:?} {room}");
    }
    for &(used, closed, room, number) in CLOSINGS {
        let state = Writer { used, closed };
        assert_eq!(numbered(room, |buffer| writer::close(state, buffer)), number, "{state:?} {room}");
    }
    for (row, adding) in ADDINGS.iter().enumerate() {
        let (used, closed) = adding.state;
        let state = Writer { used, closed };
        let record =
            NewRecord { flag: true, entry: dated(adding.lead), text: adding.text, note: adding.note };
        assert_eq!(
            numbered(adding.room, |buffer| writer::add(state, buffer, record)),
            adding.number,
            "row {row}"
        );
    }
}

fn new_record(item: &Item) -> NewRecord<'_> {
    let Item { record, text, note, .. } = item;
    NewRecord { flag: record.flag, entry: entry_of(*record), text, note }
}

/// The number that a call is to give, and what is then to stand at `used` where that is 0.
fn expected(call: &Call, state: Writer, room: usize) -> (u32, Vec<u8>) {
    let not_open = state.used < 12 || state.closed;
    let full = |bytes: usize| state.used.checked_add(bytes + 3).is_none_or(|sum| sum > room.min(LONGEST));
    match call {
        Call::Open(_, false) => (3, vec![]),
        Call::Open(..) if room < 15 => (12, vec![]),
        Call::Open(settings, _) => {
            let (start, granularity) = (settings.start.to_le_bytes(), settings.granularity.to_le_bytes());
            let rest = [settings.alarm as u8, settings.lead as u8, settings.carry_forward as u8];
            (0, [&[0xFF, 0xFF, 1, 0, 1], &start[..], &granularity, &rest].concat())
        }
        _ if not_open => (14, vec![]),
        Call::Add(item) => match item.faults.first() {
            Some(fault) => (fault.1, vec![]),
            None if full(item.bytes.len()) => (12, vec![]),
            None => (0, item.bytes.clone()),
        },
        Call::Close if full(0) => (12, vec![]),
        Call::Close => (0, vec![50, 0, 0]),
        Call::Take(_) => unreachable!("no call"),
    }
}

/// Names of calls with their numbers and of pairs of faults, and how often they came up.
type Seen = BTreeMap<String, usize>;

fn see(seen: &mut Seen, name: String) {
    *seen.entry(name).or_default() += 1;
}

fn try_run(run: &Run, seen: &mut Seen) {
    let (mut bytes, mut model) = (run.bytes(), run.bytes());
    let mut state = Writer::default();
    for (at, call) in run.calls.iter().enumerate() {
        let buffer = &mut bytes[MARGIN..MARGIN + run.room];
        let (name, before, result) = match call {
            Call::Take(strange) => {
                state = *strange;
                continue;
            }
            // It starts at 0, whatever the state is.
            Call::Open(settings, _) => ("open", opened(0), writer::open(settings_of(*settings), buffer)),
            Call::Add(item) => ("add", state, writer::add(state, buffer, new_record(item))),
            Call::Close => ("close", state, writer::close(state, buffer)),
        };
        let (wanted, written) = expected(call, before, run.room);
        assert_eq!(number(result), wanted, "call {at} of a {} run, {state:?}, room {}", run.name, run.room);
        see(seen, format!("{name} {wanted}"));
        if let Call::Add(item) = call {
            see_faults(item, state, seen);
        }
        if wanted == 0 {
            let end = before.used + written.len();
            model[MARGIN + before.used..MARGIN + end].copy_from_slice(&written);
            assert_eq!(result, Ok(Writer { used: end, closed: matches!(call, Call::Close) }));
        }
        assert!(bytes == model, "call {at} of a {} run", run.name);
        state = result.unwrap_or(before);
    }
}

fn see_faults(item: &Item, state: Writer, seen: &mut Seen) {
    let not_open = (state.used < 12 || state.closed).then_some(14);
    // Whatever the record and the buffer are.
    let no_room = (state.used >= LONGEST).then_some(12);
    let numbers: Vec<u32> =
        not_open.into_iter().chain(item.faults.iter().map(|fault| fault.1)).chain(no_room).collect();
    for (at, first) in numbers.iter().enumerate() {
        for second in &numbers[at + 1..] {
            see(seen, format!("{first} before {second}"));
        }
    }
    for (name, _) in &item.faults {
        see(seen, format!("fault: {name}"));
    }
    if item.faults.is_empty() {
        see(seen, format!("kind {}", item.record.kind));
    }
}

/// Every number, every fault and every pair of numbers comes up, and the makers knew the answer.
#[test]
fn the_runs_made_at_random() {
    let mut seen = Seen::new();
    for run in Runs::new(Rng::for_test("the_runs_made_at_random")).take(50_000) {
        try_run(&run, &mut seen);
        see(&mut seen, format!("run: {}", run.name));
    }
    println!("{seen:#?}");
    let calls = ["open 0", "open 3", "open 12", "close 0", "close 12", "close 14"];
    let adds = ["add 0", "add 6", "add 7", "add 8", "add 12", "add 14"];
    let kinds = ["kind 1", "kind 2", "kind 3", "kind 4", "kind 5", "kind 6"];
    for name in calls.into_iter().chain(adds).chain(kinds) {
        assert!(seen.get(name).is_some_and(|&count| count >= 1_000), "{name}");
    }
    let known = faults().into_iter().map(|fault| format!("fault: {}", fault.name));
    let order = [14, 6, 7, 8, 12];
    let pairs = (0..5).flat_map(|second| (0..second).map(move |first| (order[first], order[second])));
    let known = known.chain(pairs.map(|(first, second)| format!("{first} before {second}")));
    let families = ["right", "faulty", "single", "strange", "full"].map(|name| format!("run: {name}"));
    let missing: BTreeSet<_> = known.chain(families).filter(|name| !seen.contains_key(name)).collect();
    assert!(missing.is_empty(), "never made: {missing:?}");
}

/// A right book's records, written one after the other.
fn written(file: &[u8], room: usize) -> Vec<u8> {
    let mut buffer = vec![0xEE; room];
    let settings = book::read_book(file).expect("a right book").settings;
    let mut state = writer::open(settings, &mut buffer).expect("room");
    for record in book::records(file).expect("a right book") {
        let answer: RecordAnswer = Ok(record.clone()).answer();
        assert_eq!(entry_of(answer), Some(record.entry));
        let (flag, entry) = (record.flag, Some(record.entry));
        let record = NewRecord { flag, entry, text: &file[record.text], note: &file[record.note] };
        state = writer::add(state, &mut buffer, record).expect("room");
    }
    state = writer::close(state, &mut buffer).expect("room");
    assert_eq!(state, closed(room));
    buffer
}

#[test]
fn fillers_are_not_written() {
    let every_kind_written = EVERY_KIND_WRITTEN.concat();
    for count in 0..=127 {
        assert_eq!(written(&filled(count), 33), WHOLE_CASE, "{count}");
        let file = [every_kind(), fillers(count)].concat();
        assert_eq!(written(&file, every_kind_written.len()), every_kind_written, "{count}");
    }
}

/// A book with no fillers, padding and other bits comes out as it went in; one that has but fillers, without them.
#[test]
fn right_books_written_again() {
    let mut rng = Rng::for_test("right_books_written_again");
    let (mut as_they_were, mut but_for_fillers) = (0, 0);
    let cases = Cases::new(Rng::new(rng.u64()));
    for case in cases.filter(|case| case.answer == Some((0, 0))).take(10_000) {
        let bare = bare(&case.file);
        let written = written(&case.file, bare.len());
        assert!(written == bare, "{}: {:?}", case.name, case.file);
        assert!(self::written(&bare, bare.len()) == bare);
        let fillers = fillers(rng.within(1..=127).min(LONGEST - bare.len()));
        assert!(self::written(&[&bare[..], &fillers].concat(), bare.len()) == bare);
        as_they_were += usize::from(bare == case.file);
        but_for_fillers += usize::from(is_filled(&case.file, &bare));
    }
    println!("written as they were: {as_they_were}, but for fillers: {but_for_fillers}");
    assert!(as_they_were > 0 && but_for_fillers > 0);
}

/// Whether the file is this book and fillers.
fn is_filled(file: &[u8], book: &[u8]) -> bool {
    file.len() > book.len() && file == [book, &fillers(file.len() - book.len())].concat()
}
