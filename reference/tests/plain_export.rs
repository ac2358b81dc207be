//! The plain export alone: cases by hand, and every file read back and compared with the pages of its days.

use reference::book;
use reference::books::{book_of_span, crowded, Cases, Span, CROWDED_SPAN};
use reference::calendar;
use reference::days::LAST_DAY;
use reference::export::{export, export_by_occurrences};
use reference::pages::{self, ShortMonth, CHOICES};
use reference::refusal::{Refusal, NO_ROOM, OUT_OF_RANGE, TOO_MANY_BLOCKS};
use reference::rng::Rng;
use reference::vectors::exports::{self as by_hand, Exported, SPANS};
use reference::vectors::WHOLE_CASE;

const PATTERN: u8 = 0xA5;
const ENOUGH: usize = calendar::LONGEST;

/// The file, written into a buffer of so many bytes, of which the others are to stay as they are.
fn exported(book: &[u8], span: Span, choice: ShortMonth, room: usize) -> Result<Vec<u8>, Refusal> {
    let mut buffer = vec![PATTERN; room];
    let result = export(book, span.first, span.count, choice, &mut buffer);
    let rest = &buffer[result.unwrap_or(0)..];
    assert!(rest.iter().all(|&byte| byte == PATTERN));
    result.map(|length| buffer[..length].to_vec())
}

#[test]
fn exports_by_hand() {
    for Exported { book, first, count, choice, file } in by_hand::all() {
        let span = Span { first, count };
        for room in [file.len(), file.len() + 1, ENOUGH] {
            let written = exported(&book, span, choice, room).expect("a right book and span");
            assert_eq!(written, file, "{span:?} {choice:?} {book:?}");
        }
        for room in [0, file.len() - 64, file.len() - 1] {
            assert_eq!(exported(&book, span, choice, room), Err(NO_ROOM));
        }
    }
}

#[test]
fn spans_in_range() {
    for &(first, count, in_range) in SPANS {
        let span = Span { first, count };
        for choice in CHOICES {
            assert_eq!(exported(&WHOLE_CASE, span, choice, 192).is_ok(), in_range, "{span:?}");
            let number = if in_range { 12 } else { 11 };
            assert_eq!(exported(&WHOLE_CASE, span, choice, 0), Err(Refusal { number, place: 0 }));
            let cut = exported(&WHOLE_CASE[..30], span, choice, 0);
            assert_eq!(cut, Err(Refusal { number: 4, place: 30 }));
        }
    }
}

/// The last block begins at block 32,767, and then one later.
#[test]
fn too_many_blocks() {
    let file = exported(&crowded(1_257, 40).bytes, CROWDED_SPAN, ShortMonth::Skip, ENOUGH).expect("room");
    assert_eq!(file.len(), 2_137_344);
    let last = calendar::calendar_day(&file, 92).expect("a day");
    assert_eq!((last.day, last.offset), (5_186, 32_767));
    assert_eq!(exported(&crowded(1_257, 40).bytes, CROWDED_SPAN, ShortMonth::Skip, 2_137_343), Err(NO_ROOM));
    for room in [0, ENOUGH] {
        let refused = exported(&crowded(1_257, 41).bytes, CROWDED_SPAN, ShortMonth::Skip, room);
        assert_eq!(refused, Err(TOO_MANY_BLOCKS));
        let refused = exported(&crowded(1_400, 0).bytes, CROWDED_SPAN, ShortMonth::Last, room);
        assert_eq!(refused, Err(TOO_MANY_BLOCKS));
        let longer = Span { count: 367, ..CROWDED_SPAN };
        assert_eq!(exported(&crowded(1_400, 0).bytes, longer, ShortMonth::Skip, room), Err(OUT_OF_RANGE));
    }
}

/// Demand 3: what the file shows on each day is what its page shows; on other days it shows nothing.
fn shows_the_pages(book: &[u8], span: Span, choice: ShortMonth, file: &[u8]) -> usize {
    let mut shown = 0;
    let mut days = 0;
    let around = span.first.saturating_sub(3)..=(span.first + span.count + 3).min(LAST_DAY);
    for day in around {
        let page = pages::page(book, day, choice).expect("a right book and day");
        let in_span = day >= span.first && day - span.first < span.count;
        let page: Vec<_> = if in_span { page } else { vec![] };
        let page: Vec<_> =
            page.iter().map(|line| (line.start, line.alarm, &book[line.text.clone()])).collect();
        let list = calendar::day_appointments(file, day).expect("a right file");
        let list: Vec<_> = list.iter().map(|a| (a.minute, a.flags & 1 == 1, &file[a.text.clone()])).collect();
        assert_eq!(list, page, "day {day}, {span:?}, {choice:?}");
        shown += list.len();
        days += usize::from(!list.is_empty());
    }
    assert_eq!(calendar::read_calendar(file), Ok(days), "a descriptor for each day with appointments");
    shown
}

/// What the reader ignores: settings, alarm counts, order of the blocks and what fills them up.
fn is_filled(book: &[u8], file: &[u8]) {
    let settings = book::read_book(book).expect("a right book").settings;
    let word = |at: usize| u16::from_le_bytes([file[at], file[at + 1]]);
    let interval = if [15, 60].contains(&settings.granularity) { settings.granularity } else { 30 };
    assert_eq!([word(10), word(12)], [settings.lead, settings.alarm.into()]);
    assert_eq!([15, 30, 60][usize::from(word(14))], interval);
    assert_eq!([word(16), word(18), word(20)], [interval, 1, settings.start]);
    let days = usize::from(word(8));
    let mut used = vec![(0, 22), (64, 64 + 12 * days)];
    let mut block = (64 + 12 * days).next_multiple_of(64);
    for at in (64..64 + 12 * days).step_by(12) {
        assert_eq!(usize::from(word(at + 6)) * 64, block);
        assert_eq!([word(at + 2), word(at + 8), word(at + 10)], [0, 0x0FFF, 0x0FFF]);
        let list = calendar::day_appointments(file, word(at)).expect("a right file");
        assert_eq!(usize::from(word(at + 4)), list.iter().filter(|a| a.flags & 1 == 1).count());
        assert!(list.iter().all(|a| (a.flags & 2 == 2) == (a.minute % interval != 0)));
        assert_eq!(word(block + 6), 0, "notes");
        let end = block + 10 + usize::from(word(block + 8));
        used.push((block, end));
        block = end.next_multiple_of(64);
    }
    assert_eq!(file.len(), block);
    let ends = used.iter().skip(1).map(|part| part.0).chain([file.len()]);
    for (part, next) in used.iter().zip(ends) {
        assert!(file[part.1..next].iter().all(|&byte| byte == 0));
    }
}

#[test]
fn random_books_are_read_back() {
    let mut rng = Rng::for_test("random_books_are_read_back");
    let (mut files, mut shown) = ([0; 2], 0);
    for _ in 0..400 {
        let span = Span::random(&mut rng);
        let records = rng.within(0..=30);
        let book = book_of_span(span, records, &mut rng).bytes;
        for choice in CHOICES {
            let file = exported(&book, span, choice, ENOUGH / 8).expect("a right book and span");
            shown += shows_the_pages(&book, span, choice, &file);
            is_filled(&book, &file);
            files[usize::from(file.len() > 64)] += 1;
        }
    }
    println!("{files:?} files without and with days, {shown} appointments");
    assert!(files.iter().all(|&files| files >= 50) && shown >= 10_000);
}

/// Day by day and from one occurrence to the next, the same bytes and the same refusals.
#[test]
fn two_ways() {
    let mut rng = Rng::for_test("two_ways");
    let mut cases = Cases::new(Rng::new(rng.u64()));
    for number in 0..3_000 {
        let mut span = Span::random(&mut rng);
        let records = rng.within(0..=30);
        let book = match number % 4 {
            0 => cases.next().expect("a case").file,
            _ => book_of_span(span, records, &mut rng).bytes,
        };
        if rng.one_in(10) {
            (span.first, span.count) = (rng.u16(), rng.u16());
        }
        let room = rng.pick(&[64, 1_024, 100_000]);
        let (mut one, mut other) = (vec![PATTERN; room], vec![PATTERN; room]);
        for choice in CHOICES {
            let by_days = export(&book, span.first, span.count, choice, &mut one);
            let by_jumps = export_by_occurrences(&book, span.first, span.count, choice, &mut other);
            assert_eq!(by_days, by_jumps, "{span:?}");
            assert!(one == other, "{span:?}");
        }
    }
}
