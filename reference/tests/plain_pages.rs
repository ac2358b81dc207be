//! The plain day pages alone: cases by hand, and pages from lists of days that were found in a third way.

use reference::book;
use reference::books::{book_near, edge_day, Cases};
use reference::days::LAST_DAY;
use reference::occurrences::occurrences;
use reference::pages::ShortMonth::{self, Last, Skip};
use reference::pages::{self, Falls, Line, Search, CHOICES};
use reference::printed;
use reference::records::Entry;
use reference::refusal::Refusal;
use reference::rng::Rng;
use reference::vectors::pages::{self as by_hand, Shown};
use reference::vectors::single::Asked;
use reference::vectors::{moved, WHOLE_CASE};

#[test]
fn the_whole_case() {
    let line = Line { record: 0, start: 600, end: 660, alarm: true, moved: false, text: 27..30 };
    assert_eq!(pages::page(&WHOLE_CASE, 4_822, Skip), Ok(vec![line.clone()]));
    assert_eq!(pages::page_lines(&WHOLE_CASE, 4_822, Skip), Ok(1));
    assert_eq!(pages::page_line(&WHOLE_CASE, 4_822, Skip, 0), Ok(line));
    assert_eq!(pages::falls_on(&WHOLE_CASE, 0, 4_822, Skip), Ok(Falls::OnItsDay));
    assert_eq!(pages::falls_on(&WHOLE_CASE, 0, 4_823, Skip), Ok(Falls::Not));
    let next = |day| pages::next_occurrence(&WHOLE_CASE, 0, day, Skip);
    assert_eq!(next(0), Ok(Search { day: Some(4_822), looked: 4_823 }));
    assert_eq!(next(4_822), Ok(Search { day: Some(4_822), looked: 1 }));
    assert_eq!(next(4_823), Ok(Search { day: None, looked: 39_007 }));
    assert_eq!(next(43_829), Ok(Search { day: None, looked: 1 }));
}

#[test]
fn pages_by_hand() {
    for Shown { book, day, choice, page } in by_hand::all() {
        let shown = printed::printed_page(&book, day, choice).expect("a right book");
        let text = |bytes: &[u8]| String::from_utf8(bytes.to_vec()).expect("plain text");
        assert_eq!(text(&shown), text(page), "{day} {choice:?}");
        assert_eq!(printed::page_length(&book, day, choice), Ok(page.len()));
        let mut buffer = vec![0xEE; page.len() + 9];
        assert_eq!(printed::print_page(&book, day, choice, &mut buffer), Ok(page.len()));
        assert_eq!(buffer, [page, &[0xEE; 9]].concat());
        let mut short = vec![0xEE; page.len() - 1];
        let no_room = Err(Refusal { number: 12, place: 0 });
        assert_eq!(printed::print_page(&book, day, choice, &mut short), no_room);
        assert!(short.iter().all(|&byte| byte == 0xEE));
    }
}

/// No, on its own day, or moved: by the day itself, and in the third way.
#[test]
fn answers_by_hand() {
    for Asked { book, day, answers } in moved::all() {
        let entry = book::record(&book, 0).expect("a record").entry;
        for (choice, falls) in CHOICES.into_iter().zip(answers) {
            assert_eq!(pages::falls_on(&book, 0, day, choice), Ok(falls), "{day} {choice:?} {entry:?}");
            let lines = pages::page(&book, day, choice).expect("a right book");
            let moved: Vec<bool> = lines.iter().map(|line| line.moved).collect();
            let third = occurrences(&entry, choice);
            let third: Vec<bool> = third.iter().filter(|s| s.day == day).map(|s| s.moved).collect();
            let expected = match falls {
                Falls::Not => vec![],
                Falls::OnItsDay => vec![false],
                Falls::Moved => vec![true],
            };
            assert_eq!([moved, third], [expected.clone(), expected], "{day} {choice:?} {entry:?}");
        }
    }
}

#[test]
fn full_pages() {
    for (book, page) in moved::full_pages() {
        assert!(printed::printed_page(&book, 4_868, Last).as_ref() == Ok(&page), "{} bytes", page.len());
        assert_eq!(printed::page_length(&book, 4_868, Last), Ok(page.len()));
        assert_eq!(printed::printed_page(&book, 4_868, Skip), Ok(b"1993-04-30 Fri 0\n".to_vec()));
    }
}

/// The numbers that the seven calls give, with no room to print in.
fn numbers(file: &[u8], number: usize, day: u16) -> [(u32, usize); 7] {
    fn of<T>(result: Result<T, Refusal>) -> (u32, usize) {
        result.map_or_else(|refusal| (refusal.number, refusal.place), |_| (0, 0))
    }
    [
        of(pages::falls_on(file, number, day, Skip)),
        of(pages::next_occurrence(file, number, day, Skip)),
        of(pages::page_line(file, day, Skip, number)),
        of(pages::page(file, day, Skip)),
        of(pages::page_lines(file, day, Skip)),
        of(printed::page_length(file, day, Skip)),
        of(printed::print_page(file, day, Skip, &mut [])),
    ]
}

/// The book's own, then 11, 10, 12.
#[test]
fn refusals_in_order() {
    const FINE: (u32, usize) = (0, 0);
    let numbered = [10, 10, 10].map(|number| (number, 0));
    assert_eq!(numbers(&WHOLE_CASE, 0, 4_822), [FINE, FINE, FINE, FINE, FINE, FINE, (12, 0)]);
    let [a, b, c] = numbered;
    assert_eq!(numbers(&WHOLE_CASE, 1, 4_822), [a, b, c, FINE, FINE, FINE, (12, 0)]);
    assert_eq!(numbers(&WHOLE_CASE, usize::MAX, 0), [a, b, c, FINE, FINE, FINE, (12, 0)]);
    for day in [43_830, 43_831, 65_535] {
        assert_eq!(numbers(&WHOLE_CASE, 0, day), [(11, 0); 7]);
        assert_eq!(numbers(&WHOLE_CASE, 1, day), [(11, 0); 7]);
        assert_eq!(numbers(&WHOLE_CASE[..30], 1, day), [(4, 30); 7]);
    }
    assert_eq!(numbers(&WHOLE_CASE[..30], 0, 4_822), [(4, 30); 7]);
    assert_eq!(numbers(&[], 0, 0), [(2, 0); 7]);
    assert_eq!(numbers(&[WHOLE_CASE.to_vec(), vec![0]].concat(), 9, 65_535), [(9, 33); 7]);
}

/// The page from the lists of days: start minutes and numbers in order, and which are moved.
fn page_by_days(file: &[u8], day: u16, choice: ShortMonth) -> Vec<(u16, usize, bool)> {
    let mut page = vec![];
    for (number, record) in book::records(file).expect("a right book").iter().enumerate() {
        if let Some(showing) = occurrences(&record.entry, choice).iter().find(|showing| showing.day == day) {
            let (Entry::Dated { times, .. } | Entry::Repeated { times, .. }) = record.entry else {
                panic!("a to-do on a day")
            };
            page.push((times.start, number, showing.moved));
        }
    }
    page.sort();
    page
}

#[test]
fn random_pages() {
    let mut rng = Rng::for_test("random_pages");
    let (mut counts, mut moved) = ([0; 4], 0);
    for _ in 0..3_000 {
        let day = edge_day(&mut rng);
        let records = rng.within(0..=20);
        let file = book_near(day, records, &mut rng).bytes;
        for day in [day, day.saturating_sub(1), (day + 1).min(LAST_DAY)] {
            for choice in CHOICES {
                let page = pages::page(&file, day, choice).expect("a right book");
                let short: Vec<_> = page.iter().map(|line| (line.start, line.record, line.moved)).collect();
                assert_eq!(short, page_by_days(&file, day, choice), "{day} {choice:?} {file:?}");
                the_other_calls(&file, day, choice, &page);
                counts[page.len().min(3)] += 1;
                moved += page.iter().filter(|line| line.moved).count();
            }
        }
    }
    println!("pages by number of lines, up to 3 and more: {counts:?}; moved lines: {moved}");
    assert!(counts.iter().all(|&count| count >= 900) && moved >= 250);
}

/// They say the same as the page and the book's records do.
fn the_other_calls(file: &[u8], day: u16, choice: ShortMonth, page: &[Line]) {
    assert_eq!(pages::page_lines(file, day, choice), Ok(page.len()));
    let bytes = printed::printed_page(file, day, choice).expect("a right book");
    assert_eq!(printed::page_length(file, day, choice), Ok(bytes.len()));
    let texts: usize = page.iter().map(|line| line.text.len()).sum();
    let moved = page.iter().filter(|line| line.moved).count();
    assert_eq!(bytes.len(), 16 + page.len().to_string().len() + 13 * page.len() + moved + texts);
    for (at, line) in page.iter().enumerate() {
        assert_eq!(pages::page_line(file, day, choice, at).as_ref(), Ok(line));
        let falls = if line.moved { Falls::Moved } else { Falls::OnItsDay };
        assert_eq!(pages::falls_on(file, line.record, day, choice), Ok(falls));
        let record = book::record(file, line.record).expect("a record");
        let (Entry::Dated { times, .. } | Entry::Repeated { times, .. }) = record.entry else {
            panic!("a to-do on a day")
        };
        let (start, end, text) = (times.start, times.end, record.text);
        assert_eq!(*line, Line { start, end, alarm: record.flag, text, ..*line });
    }
}

/// A damaged book is refused as it is when it is read, whatever is asked.
#[test]
fn damaged_books() {
    for case in Cases::new(Rng::for_test("damaged_books")).take(10_000) {
        if let Err(Refusal { number, place }) = book::read_book(&case.file) {
            assert_eq!(numbers(&case.file, 0, 4_822), [(number, place); 7], "{}", case.name);
            assert_eq!(numbers(&case.file, 99, 65_535), [(number, place); 7], "{}", case.name);
        }
    }
}
