//! Every call on a book with fillers gives what it gives without them: answers and whole buffers.

use apptbook::raw::book::{BookAnswer, LineAnswer, LinesAnswer, RecordAnswer};
use apptbook::raw::pages::{CountAnswer, FallsAnswer, OccurrenceAnswer, PageLineAnswer};
use apptbook::raw::reasons::ReasonAnswer;
use reference::answers::IntoAnswer;
use reference::books::{book_near, book_of_span, edge_day, small, File, Span};
use reference::calls::{Calls, PLAIN, PROVED};
use reference::pages::ShortMonth::{self, Last, Skip};
use reference::pages::CHOICES;
use reference::refusal::Refusal;
use reference::rng::Rng;
use reference::vectors::exports::{self, Exported};
use reference::vectors::fillers::{filled, fillers};
use reference::vectors::pages::{self, Shown};
use reference::vectors::{every_kind, WHOLE_CASE};
use reference::writings::{pattern, MARGIN};

#[derive(Clone, Copy)]
struct Asked {
    day: u16,
    span: Span,
    choice: ShortMonth,
    /// From one record or line that is asked for to the next.
    step: usize,
}

fn asked(day: u16, first: u16, count: u16, choice: ShortMonth) -> Asked {
    Asked { day, span: Span { first, count }, choice, step: 1 }
}

/// A record, its notes, when it falls, and why.
type OfRecord = (RecordAnswer, LinesAnswer, Vec<LineAnswer>, FallsAnswer, ReasonAnswer, OccurrenceAnswer);

/// An answer, and the buffer with the bytes around it.
type Written = (CountAnswer, Vec<u8>);

#[derive(PartialEq)]
struct Given {
    book: BookAnswer,
    records: Vec<OfRecord>,
    lines: CountAnswer,
    page: Vec<PageLineAnswer>,
    length: CountAnswer,
    printed: [Written; 3],
    exported: [Written; 3],
}

fn of_record(calls: &Calls, file: &[u8], record: usize, asked: Asked) -> OfRecord {
    let lines = (calls.note_lines)(file, record);
    (
        (calls.record)(file, record),
        lines,
        (0..=lines.lines).map(|line| (calls.note_line)(file, record, line)).collect(),
        (calls.falls_on)(file, record, asked.day, asked.choice),
        (calls.why)(file, record, asked.day, asked.choice),
        (calls.next_occurrence)(file, record, asked.day, asked.choice),
    )
}

/// With much room, and then with just enough and with a byte less.
fn written(most: usize, write: impl Fn(&mut [u8]) -> CountAnswer) -> [Written; 3] {
    let into = |room: usize| {
        let mut bytes = pattern(room);
        (write(&mut bytes[MARGIN..MARGIN + room]), bytes)
    };
    let first = into(most);
    let length = first.0.count;
    [first, into(length), into(length.saturating_sub(1))]
}

fn given(calls: &Calls, file: &[u8], asked: Asked) -> Given {
    let Asked { day, span, choice, step } = asked;
    let most = 10_000 + 1_000 * usize::from(span.count);
    let book = (calls.read_book)(file);
    let lines = (calls.page_lines)(file, day, choice);
    let length = (calls.page_length)(file, day, choice);
    Given {
        book,
        records: (0..=book.records).step_by(step).map(|at| of_record(calls, file, at, asked)).collect(),
        lines,
        page: (0..=lines.count).step_by(step).map(|at| (calls.page_line)(file, day, choice, at)).collect(),
        length,
        printed: written(length.count + 9, |buffer| (calls.print_page)(file, day, choice, buffer)),
        exported: written(most, |buffer| (calls.export)(file, span.first, span.count, choice, buffer)),
    }
}

/// With each of these numbers of fillers; gives what there is without any.
fn same(calls: &Calls, book: &[u8], counts: &[usize], asked: Asked) -> Given {
    let without = given(calls, book, asked);
    let numbers = [without.book.number, without.printed[1].0.number, without.exported[1].0.number];
    assert_eq!(numbers, if asked.day <= 43_829 { [0, 0, 0] } else { [0, 11, 11] }, "{}", calls.name);
    for &count in counts {
        let file = [book, &fillers(count)].concat();
        let again = || asked.step > 1 || calls.written_again(&file) == calls.written_again(book);
        let same = given(calls, &file, asked) == without && again();
        assert!(same, "{}, {count} fillers after {} bytes", calls.name, book.len());
    }
    without
}

fn same_by_both(book: &[u8], counts: &[usize], asked: Asked) {
    let (proved, plain) = (same(&PROVED, book, counts, asked), same(&PLAIN, book, counts, asked));
    assert!(proved == plain, "a book of {} bytes", book.len());
}

/// On days of theirs, and on one that is none.
fn every_number(same: impl Fn(&[u8], &[usize], Asked)) {
    let counts: Vec<usize> = (0..=127).collect();
    for (day, choice) in [(4_822, Skip), (7_364, Last), (43_830, Skip)] {
        same(&WHOLE_CASE, &counts, asked(day, day, 1, choice));
        same(&every_kind(), &counts, asked(day, day, 1, choice));
    }
}

#[test]
fn the_case_and_every_kind() {
    every_number(same_by_both);
}

#[test]
fn the_reference_alone() {
    every_number(|book, counts, asked| drop(same(&PLAIN, book, counts, asked)));
}

#[test]
fn pages_and_exports_by_hand() {
    let counts = [1, 63, 95, 126, 127];
    let filled = |book: &[u8]| [book, &fillers(95)].concat();
    for Shown { book, day, choice, page } in pages::all() {
        let asked = asked(day, day, 1, choice);
        same_by_both(&book, &counts, asked);
        let printed = &given(&PROVED, &filled(&book), asked).printed[1].1;
        assert_eq!(printed[MARGIN..MARGIN + page.len()], *page);
    }
    for Exported { book, first, count, choice, file } in exports::all() {
        let asked = asked(first, first, count, choice);
        same_by_both(&book, &counts, asked);
        let exported = &given(&PROVED, &filled(&book), asked).exported[1].1;
        assert_eq!(exported[MARGIN..MARGIN + file.len()], file);
    }
}

/// Up to a whole block, any number, and as many as there may be.
#[test]
fn random_books() {
    let mut rng = Rng::for_test("random_books");
    for number in 0..300 {
        let (day, span, choice) = (edge_day(&mut rng), Span::random(&mut rng), rng.pick(&CHOICES));
        let records = rng.within(0..=20);
        let (mut book, day) = match number % 2 {
            0 => (book_near(day, records, &mut rng), day),
            _ => (book_of_span(span, records, &mut rng), span.first),
        };
        book.fill(0);
        let to_a_block = book.bytes.len().next_multiple_of(128) - book.bytes.len();
        let counts = [to_a_block, rng.within(1..=127), 127];
        same_by_both(&book.bytes, &counts, asked(day, span.first, span.count, choice));
    }
}

/// With 127 fillers it has 65,535 bytes.
#[test]
fn the_longest_book() {
    let mut rng = Rng::for_test("the_longest_book");
    let book = File::full(65_408, || small(rng.within(1..=6) as u8, &mut rng)).bytes;
    for choice in CHOICES {
        same_by_both(&book, &[1, 127], Asked { step: 499, ..asked(4_822, 4_822, 7, choice) });
    }
}

/// Too many or a wrong one: every call is refused as the book is, and writes nothing.
#[test]
fn wrong_fillers() {
    let spoiled = |count: usize, at: usize| {
        let mut file = filled(count);
        file[at] = 0x1B;
        file
    };
    for (file, place) in
        [(filled(128), 33), (spoiled(1, 33), 33), (spoiled(127, 37), 37), (spoiled(127, 159), 159)]
    {
        let refusal = Refusal { number: 9, place };
        let (record, lines, line) = (Err(refusal).answer(), Err(refusal).answer(), Err(refusal).answer());
        let (falls, why, next) = (Err(refusal).answer(), Err(refusal).answer(), Err(refusal).answer());
        let nothing = |room: usize| (Err(refusal).answer(), pattern(room));
        let expected = Given {
            book: Err(refusal).answer(),
            records: vec![(record, lines, vec![line], falls, why, next)],
            lines: Err(refusal).answer(),
            page: vec![Err(refusal).answer()],
            length: Err(refusal).answer(),
            printed: [nothing(9), nothing(0), nothing(0)],
            exported: [nothing(11_000), nothing(0), nothing(0)],
        };
        for calls in [&PROVED, &PLAIN] {
            let given = given(calls, &file, asked(4_822, 4_822, 1, Skip));
            assert!(given == expected, "{}, place {place}", calls.name);
        }
    }
}
