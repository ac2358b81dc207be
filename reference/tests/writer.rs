//! The proved book writer against the plain one: every field of every answer, refusals too, and every byte
//! of the buffer and around it after each call.

use apptbook::raw::book::{self as reader, BookAnswer, RecordAnswer};
use apptbook::raw::writer::{self as proved, WriterAnswer};
use reference::answers::{entry_of, settings_of, state_of, writer_answer, IntoAnswer};
use reference::book as plain_book;
use reference::books::{edge_notes, long, small, Cases, Draft};
use reference::notes;
use reference::records::Record;
use reference::rng::Rng;
use reference::vectors::fillers::{filled, fillers};
use reference::vectors::{every_kind, every_kind_records, EVERY_KIND_WRITTEN, WHOLE_CASE};
use reference::vectors::{ADDINGS, CLOSINGS, OPENINGS};
use reference::writer::{self as plain, NewRecord, Writer};
use reference::writings::{bare, filling, pattern, Call, Item, Run, Runs, MARGIN};

fn opened(used: usize) -> WriterAnswer {
    WriterAnswer { number: 0, place: 0, used, closed: false }
}

fn closed(used: usize) -> WriterAnswer {
    WriterAnswer { number: 0, place: 0, used, closed: true }
}

const SETTINGS: BookAnswer = BookAnswer {
    number: 0,
    place: 0,
    records: 0,
    start: 480,
    granularity: 30,
    lead: 5,
    alarm: true,
    carry_forward: false,
};

/// The record of the whole case.
fn dated() -> RecordAnswer {
    RecordAnswer {
        kind: 1,
        start: 600,
        end: 660,
        lead: 5,
        first_year: 1993,
        first_month: 3,
        first_day: 15,
        flag: true,
        ..Default::default()
    }
}

#[test]
fn the_whole_case() {
    for room in [33, 34, 40, 65_535, 70_000] {
        let before = pattern(room);
        let mut bytes = before.clone();
        let as_before = |bytes: &[u8], used: usize| {
            assert_eq!(bytes[MARGIN..MARGIN + used], WHOLE_CASE[..used]);
            assert!(bytes[..MARGIN] == before[..MARGIN]);
            assert!(bytes[MARGIN + used..] == before[MARGIN + used..]);
        };
        let lent = MARGIN..MARGIN + room;
        assert_eq!(proved::open(SETTINGS, &mut bytes[lent.clone()]), opened(12));
        as_before(&bytes, 12);
        assert_eq!(proved::add(opened(12), &mut bytes[lent.clone()], dated(), b"Dep", b""), opened(30));
        as_before(&bytes, 30);
        assert_eq!(proved::close(opened(30), &mut bytes[lent]), closed(33));
        as_before(&bytes, 33);
    }
}

#[test]
fn every_kind_by_hand() {
    let file = every_kind();
    let written = EVERY_KIND_WRITTEN.concat();
    let mut buffer = vec![0xEE; written.len()];
    let settings = BookAnswer {
        start: 1_439,
        granularity: 720,
        lead: 30,
        alarm: false,
        carry_forward: true,
        ..Default::default()
    };
    let mut state = proved::open(settings, &mut buffer);
    assert_eq!(state, opened(12));
    for (record, part) in every_kind_records().into_iter().zip(&EVERY_KIND_WRITTEN[1..]) {
        let (text, note) = (&file[record.text.clone()], &file[record.note.clone()]);
        let used = state.used;
        state = proved::add(state, &mut buffer, Ok(record.clone()).answer(), text, note);
        assert_eq!(state, opened(used + part.len()), "{record:?}");
        assert_eq!(&buffer[used..state.used], *part, "{record:?}");
        assert!(buffer[state.used..].iter().all(|&byte| byte == 0xEE));
    }
    assert_eq!(proved::close(state, &mut buffer), closed(written.len()));
    assert_eq!(buffer, written);
}

/// Makes the call on a buffer of so many bytes. A refusal is to change none and to give the state back.
fn numbered(room: usize, before: WriterAnswer, call: impl FnOnce(&mut [u8]) -> WriterAnswer) -> u32 {
    let mut bytes = pattern(room);
    let answer = call(&mut bytes[MARGIN..MARGIN + room]);
    assert_eq!(answer.number != 0, bytes == pattern(room));
    if answer.number != 0 {
        assert_eq!(answer, WriterAnswer { number: answer.number, place: 0, ..before });
    }
    answer.number
}

#[test]
fn refusals_by_hand() {
    for &(start, granularity, lead, room, number) in OPENINGS {
        let settings = BookAnswer { start, granularity, lead, ..SETTINGS };
        let given = numbered(room, opened(0), |buffer| proved::open(settings, buffer));
        assert_eq!(given, number, "{settings:?} {room}");
    }
    for &(used, closed, room, number) in CLOSINGS {
        // Number and place are ignored.
        for (before, place) in [(0, 0), (14, 9), (u32::MAX, usize::MAX)] {
            let state = WriterAnswer { number: before, place, used, closed };
            let given = numbered(room, state, |buffer| proved::close(state, buffer));
            assert_eq!(given, number, "{state:?} {room}");
        }
    }
    for (row, adding) in ADDINGS.iter().enumerate() {
        let (used, closed) = adding.state;
        for (before, place) in [(0, 0), (14, 9), (u32::MAX, usize::MAX)] {
            let state = WriterAnswer { number: before, place, used, closed };
            let record = RecordAnswer { lead: adding.lead, ..dated() };
            let call = |buffer: &mut [u8]| proved::add(state, buffer, record, adding.text, adding.note);
            assert_eq!(numbered(adding.room, state, call), adding.number, "row {row}");
        }
    }
}

/// A buffer lent to each side, in the midst of other bytes, and the state that both gave.
struct Both {
    proved: Vec<u8>,
    plain: Vec<u8>,
    room: usize,
    state: Writer,
    /// Settings and records since the last opening, while each state was handed on as it came.
    written: Option<(BookAnswer, Vec<Item>)>,
}

impl Both {
    fn new(room: usize) -> Self {
        let state = Writer::default();
        Both { proved: pattern(room), plain: pattern(room), room, state, written: None }
    }

    /// Gives the number that both gave.
    fn call(&mut self, call: &Call, rng: &mut Rng, name: &str) -> Option<u32> {
        let lent = MARGIN..MARGIN + self.room;
        let (proved, plain) = (&mut self.proved[lent.clone()], &mut self.plain[lent]);
        let Writer { used, closed } = self.state;
        let mut state = WriterAnswer { number: 0, place: 0, used, closed };
        if rng.one_in(2) {
            (state.number, state.place) = (rng.u64() as u32, rng.u64() as usize);
        }
        let (answer, expected) = match call {
            Call::Take(state) => {
                (self.state, self.written) = (*state, None);
                return None;
            }
            Call::Open(settings, _) => {
                let result = plain::open(settings_of(*settings), plain);
                (proved::open(*settings, proved), writer_answer(result, Writer::default()))
            }
            Call::Add(item) => {
                let Item { record, text, note, .. } = &**item;
                let (lent_text, lent_note) = (text.clone(), note.clone());
                let answer = proved::add(state, proved, *record, &lent_text, &lent_note);
                assert!(lent_text == *text && lent_note == *note, "text or note changed, {name}");
                let new = NewRecord { flag: record.flag, entry: entry_of(*record), text, note };
                (answer, writer_answer(plain::add(self.state, plain, new), self.state))
            }
            Call::Close => {
                let answer = proved::close(state, proved);
                (answer, writer_answer(plain::close(self.state, plain), self.state))
            }
        };
        let show = || format!("{name}, {state:?}, room {}, {}", self.room, show(call));
        assert_eq!(answer, expected, "{}", show());
        assert!(self.proved == self.plain, "the buffers differ: {}", show());
        self.note_down(call, answer);
        self.state = state_of(answer);
        Some(answer.number)
    }

    fn note_down(&mut self, call: &Call, answer: WriterAnswer) {
        match call {
            Call::Open(settings, _) if answer.number == 0 => self.written = Some((*settings, vec![])),
            // Its state is not the one before.
            Call::Open(..) => self.written = None,
            Call::Add(item) if answer.number == 0 => {
                if let Some((_, items)) = &mut self.written {
                    items.push(Item::clone(item));
                }
            }
            Call::Close if answer.number == 0 => {
                if let Some((settings, items)) = self.written.take() {
                    read_back(&self.proved[MARGIN..MARGIN + answer.used], settings, &items);
                }
            }
            _ => (),
        }
    }
}

fn show(call: &Call) -> String {
    match call {
        Call::Open(settings, _) => format!("open {settings:?}"),
        Call::Add(item) if item.text.len() + item.note.len() < 600 => {
            format!("add {:?} {:?} {:?} {:?}", item.record, item.text, item.note, item.faults)
        }
        Call::Add(item) => format!("add {:?} {:?}", item.record, item.faults),
        Call::Close => "close".into(),
        Call::Take(_) => "no call".into(),
    }
}

/// The proved reader finds what was handed over, and nothing of what was to be ignored.
fn read_back(file: &[u8], settings: BookAnswer, items: &[Item]) {
    let book = reader::read_book(file);
    assert_eq!(book, BookAnswer { number: 0, place: 0, records: items.len(), ..settings });
    let mut at = 12;
    for (number, item) in items.iter().enumerate() {
        let next = at + item.bytes.len();
        let note_at = next - item.note.len();
        let text_at = note_at - item.text.len();
        if is_asked(number, items.len(), file) {
            let entry = entry_of(item.record).expect("a right record");
            let (text, note) = (text_at..note_at, note_at..next);
            let expected = Record { at, flag: item.record.flag, entry, text, note };
            assert_eq!(reader::record(file, number), Ok(expected).answer());
            assert_eq!(file[text_at..note_at], item.text);
            assert_eq!(file[note_at..next], item.note);
        }
        at = next;
    }
    assert_eq!(file[at..], [50, 0, 0]);
}

#[test]
fn random_runs() {
    let mut numbers = [0; 15];
    let mut rng = Rng::for_test("random_runs");
    for (number, run) in Runs::new(Rng::new(rng.u64())).take(100_000).enumerate() {
        let mut both = Both::new(run.room);
        for (at, call) in run.calls.iter().enumerate() {
            let name = format!("call {at} of run {number} ({})", run.name);
            if let Some(given) = both.call(call, &mut rng, &name) {
                numbers[given as usize] += 1;
            }
        }
    }
    println!("calls by number: {numbers:?}");
    for number in [0, 3, 6, 7, 8, 12, 14] {
        assert!(numbers[number] >= 1_000, "{number}: {numbers:?}");
    }
}

fn run(name: &'static str, room: usize, items: &[Item], settings: BookAnswer) -> Run {
    let adds = items.iter().map(|item| Call::Add(item.clone().into()));
    let calls = [Call::Open(settings, true)].into_iter().chain(adds).chain([Call::Close]).collect();
    Run { name, room, calls }
}

/// The numbers that were given.
fn compare(run: &Run, rng: &mut Rng) -> Vec<u32> {
    let mut both = Both::new(run.room);
    run.calls.iter().filter_map(|call| both.call(call, rng, run.name)).collect()
}

/// Every length of the buffer, from none to some more than enough.
#[test]
fn every_room() {
    let mut rng = Rng::for_test("every_room");
    for _ in 0..40 {
        let items: Vec<Item> = (0..rng.within(0..=3)).map(|_| Item::random(&mut rng)).collect();
        let exact = 15 + items.iter().map(|item| item.bytes.len()).sum::<usize>();
        for room in 0..exact + 5 {
            let numbers = compare(&run("every room", room, &items, SETTINGS), &mut rng);
            assert_eq!(numbers.iter().all(|&number| number == 0), room >= exact);
        }
    }
}

#[test]
fn notes_at_their_edges() {
    let mut rng = Rng::for_test("notes_at_their_edges");
    let mut numbers = [0; 15];
    for note in edge_notes() {
        let draft = small(rng.within(1..=6) as u8, &mut rng);
        let item = if notes::is_right(&note) {
            Item::new(&Draft { note, ..draft })
        } else {
            Item { note, faults: vec![("note".into(), 8)], ..Item::new(&draft) }
        };
        let added = compare(&run("a note at an edge", 1_000, &[item], SETTINGS), &mut rng)[1];
        numbers[added as usize] += 1;
    }
    assert!(numbers[0] > 1_000 && numbers[8] > 1_000, "{numbers:?}");
}

/// Every number of bytes used that is near an edge, for each kind.
#[test]
fn every_state() {
    let mut rng = Rng::for_test("every_state");
    for room in [0, 14, 15, 100, 600, 65_534, 65_535, 65_536, 66_000] {
        for _ in 0..12 {
            let item = Item::random(&mut rng);
            let length = item.bytes.len();
            let mut both = Both::new(room);
            let near = |edge: usize| (0..5).map(move |more| edge.wrapping_add(more).wrapping_sub(2));
            let edges = [0, 12, room, 65_535, 65_536, 65_548, 1 << 31, 1 << 32, 1 << 63];
            let edges = edges.into_iter().flat_map(|edge| [edge, edge.wrapping_sub(3)]);
            let edges = edges.flat_map(|edge| [edge, edge.wrapping_sub(length)]);
            for used in edges.flat_map(near) {
                for closed in [false, true] {
                    for call in [Call::Add(item.clone().into()), Call::Close] {
                        both.call(&Call::Take(Writer { used, closed }), &mut rng, "every state");
                        both.call(&call, &mut rng, "every state");
                    }
                }
            }
        }
    }
}

#[test]
fn the_longest_books() {
    let mut rng = Rng::for_test("the_longest_books");
    for room in [65_534, 65_535, 65_536, 70_000] {
        for size in [65_534, 65_535, 65_536] {
            let items = filling(size, &mut rng);
            let numbers = compare(&run("longest", room, &items, SETTINGS), &mut rng);
            let fits = size <= room.min(65_535);
            // Only the last record finds no room.
            let mut expected = vec![0; items.len() + 2];
            expected[items.len()] = if fits { 0 } else { 12 };
            assert_eq!(numbers, expected, "{size} in {room}");
        }
    }
    for kind in 1..=6 {
        let many: Vec<Item> = (0..4_300).map(|_| Item::new(&small(kind, &mut rng))).collect();
        let few: Vec<Item> = (0..140).map(|_| Item::new(&long(kind, &mut rng))).collect();
        for items in [many, few] {
            let numbers = compare(&run("too many records", 65_535, &items, SETTINGS), &mut rng);
            assert!(numbers.contains(&12));
            assert_eq!(numbers.last(), Some(&0));
        }
    }
}

/// All records of most books, some of the largest: every call of the reader judges the whole book.
fn is_asked(number: usize, records: usize, file: &[u8]) -> bool {
    records * file.len() < 10_000_000 || number % 97 == 0 || number + 1 == records
}

/// Reads through the proved reader and hands on what it gives, as it is, to the proved writer.
fn written(file: &[u8], room: usize) -> Vec<u8> {
    let mut bytes = pattern(room);
    let buffer = &mut bytes[MARGIN..MARGIN + room];
    let book = reader::read_book(file);
    let mut state = proved::open(book, buffer);
    let known = plain_book::records(file).expect("a right book");
    assert_eq!(book.records, known.len());
    for (number, known) in known.into_iter().enumerate() {
        let asked = is_asked(number, book.records, file);
        let record = if asked { reader::record(file, number) } else { Ok(known).answer() };
        let text = &file[record.text_at..record.text_at + record.text_length];
        let note = &file[record.note_at..record.note_at + record.note_length];
        assert_eq!(state.number, 0, "before record {number}");
        state = proved::add(state, buffer, record, text, note);
    }
    assert_eq!(proved::close(state, buffer), closed(room));
    let before = pattern(room);
    assert!(bytes[..MARGIN] == before[..MARGIN] && bytes[MARGIN + room..] == before[MARGIN + room..]);
    bytes[MARGIN..MARGIN + room].to_vec()
}

#[test]
fn fillers_are_not_written() {
    let every_kind_written = EVERY_KIND_WRITTEN.concat();
    for count in 0..=127 {
        assert_eq!(written(&filled(count), 33), WHOLE_CASE, "{count}");
        let file = [every_kind(), fillers(count)].concat();
        assert_eq!(written(&file, every_kind_written.len()), every_kind_written, "{count}");
    }
}

/// A bare book comes out as it went in, any other without its fillers, its padding and the bits that have no name.
#[test]
fn right_books_written_again() {
    let mut rng = Rng::for_test("right_books_written_again");
    let (mut as_they_were, mut but_for_fillers) = (0, 0);
    let cases = Cases::new(Rng::new(rng.u64()));
    for case in cases.filter(|case| case.answer == Some((0, 0))).take(20_000) {
        let bare = bare(&case.file);
        assert!(written(&case.file, bare.len()) == bare, "{}: {:?}", case.name, case.file);
        assert!(written(&bare, bare.len()) == bare, "{}, bare: {bare:?}", case.name);
        let fillers = fillers(rng.within(1..=127).min(65_535 - bare.len()));
        let filled = [&bare[..], &fillers].concat();
        assert!(written(&filled, bare.len()) == bare, "{}, filled: {filled:?}", case.name);
        as_they_were += usize::from(bare == case.file);
        but_for_fillers += usize::from(is_filled(&case.file, &bare));
        same_records(&case.file, &bare);
    }
    println!("written as they were: {as_they_were}, but for fillers: {but_for_fillers}");
    assert!(as_they_were > 0 && but_for_fillers > 0);
}

/// Whether the file is this book and fillers.
fn is_filled(file: &[u8], book: &[u8]) -> bool {
    file.len() > book.len() && file == [book, &fillers(file.len() - book.len())].concat()
}

/// The proved reader gives the same settings and fields, with other places, and the same texts and notes.
fn same_records(file: &[u8], bare: &[u8]) {
    let book = reader::read_book(file);
    assert_eq!(reader::read_book(bare), book);
    for number in (0..book.records).filter(|&number| is_asked(number, book.records, file)) {
        let (one, other) = (reader::record(file, number), reader::record(bare, number));
        let RecordAnswer { at, text_at, note_at, .. } = other;
        assert_eq!(RecordAnswer { at, text_at, note_at, ..one }, other);
        let (text, note) = (one.text_length, one.note_length);
        assert_eq!(file[one.text_at..one.text_at + text], bare[text_at..text_at + text]);
        assert_eq!(file[one.note_at..one.note_at + note], bare[note_at..note_at + note]);
    }
}
