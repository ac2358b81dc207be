//! Short runs of hostile inputs; long ones are run by `cargo run --release --bin fuzz -- SECONDS`.

use apptbook::raw::{book, chains, export, pages};
use reference::book as plain_book;
use reference::books::{book_of_span, crowded, Span};
use reference::chains::MOST_RECORDS;
use reference::day_chains::Plan;
use reference::fuzz::calls::Fuzz;
use reference::fuzz::{files, program, Tally};
use reference::header;
use reference::pages::ShortMonth::{Last, Skip};
use reference::printed;
use reference::process::apptbook;
use reference::refusal::Refusal;
use reference::rng::Rng;
use std::sync::Barrier;
use std::thread;

/// All of `include/apptbook.h`, with the numbers that each has to give in a run as long as this.
const CALLS: &[(&str, &[u32])] = &[
    ("month_length", &[0, 11]),
    ("is_real_date", &[0]),
    ("day_of_date", &[0, 11]),
    ("date_of_day", &[0, 11]),
    ("weekday", &[0, 11]),
    ("day_facts", &[0, 11]),
    ("next_day", &[0, 11]),
    ("calendar_of_psion", &[0, 11]),
    ("psion_of_calendar", &[0, 11]),
    ("read_book", &[0, 1, 2, 3, 4, 5, 6, 7, 8, 9]),
    ("record", &[0, 1, 2, 3, 4, 5, 6, 7, 8, 9, 10]),
    ("note_lines", &[0, 1, 2, 3, 4, 5, 6, 7, 8, 9, 10]),
    ("note_line", &[0, 1, 2, 3, 4, 5, 6, 7, 8, 9, 10]),
    ("open", &[0, 3, 12]),
    ("add", &[0, 6, 7, 8, 12, 14]),
    ("close", &[0, 12, 14]),
    ("default_last", &[0]),
    ("falls_on", &[0, 1, 2, 3, 4, 5, 6, 7, 8, 9, 10, 11]),
    ("why", &[0, 1, 2, 3, 4, 5, 6, 7, 8, 9, 10, 11]),
    ("next_occurrence", &[0, 1, 2, 3, 4, 5, 6, 7, 8, 9, 10, 11]),
    ("page_lines", &[0, 1, 2, 3, 4, 5, 6, 7, 8, 9, 11]),
    ("page_line", &[0, 1, 2, 3, 4, 5, 6, 7, 8, 9, 10, 11]),
    ("page_length", &[0, 1, 2, 3, 4, 5, 6, 7, 8, 9, 11]),
    ("print_page", &[0, 1, 2, 3, 4, 5, 6, 7, 8, 9, 11, 12]),
    ("read_calendar", &[0, 20, 21, 22, 23, 24]),
    ("calendar_day", &[0, 10, 20, 21, 22, 23, 24]),
    ("calendar_appointments", &[0, 11, 20, 21, 22, 23, 24]),
    ("calendar_appointment", &[0, 10, 11, 20, 21, 22, 23, 24]),
    ("export", &[0, 1, 2, 3, 4, 5, 6, 7, 8, 9, 11, 12]),
    ("check_chains", &[0, 30, 31, 32, 33]),
];

#[test]
fn hostile_calls() {
    let mut rng = Rng::for_test("hostile_calls");
    let mut fuzz = Fuzz::new();
    for _ in 0..3_000 {
        fuzz.round(rng.u64());
    }
    println!("{}moved: {:?}, reasons: {:?}", fuzz.tally, fuzz.tally.moved, fuzz.tally.reasons);
    for (call, numbers) in CALLS {
        let seen = &fuzz.tally.counts[call];
        assert!(numbers.iter().all(|number| seen.contains_key(number)), "{call}: {seen:?}");
    }
    assert_eq!(fuzz.tally.counts.len(), CALLS.len());
    assert!(fuzz.tally.moved.iter().all(|&count| count >= 5), "moved: {:?}", fuzz.tally.moved);
    assert!(fuzz.tally.reasons.iter().all(|&count| count >= 5), "reasons: {:?}", fuzz.tally.reasons);
}

/// Books end with fillers in all ways: right ones, a wrong byte among them, too many, too many and a wrong one.
#[test]
fn hostile_fillers() {
    let mut rng = Rng::for_test("hostile_fillers");
    let mut counts = [0; 4];
    for _ in 0..3_000 {
        let file = files::book(&mut rng);
        let fillers = |bytes: &[u8]| bytes.iter().all(|&byte| byte == 0x1A);
        let kind = match plain_book::read_book(&file) {
            Ok(_) if file.ends_with(&[0x1A]) => 0,
            Err(Refusal { number: 9, place }) if file.len() - place <= 127 && file[place - 1] == 0x1A => 1,
            Err(Refusal { number: 9, place }) if fillers(&file[place..]) => 2,
            Err(Refusal { number: 9, place }) if fillers(&file[place..place + 1]) => 3,
            _ => continue,
        };
        counts[kind] += 1;
    }
    println!("right, wrong, too many, too many and wrong: {counts:?}");
    assert!(counts.iter().all(|&count| count >= 10), "{counts:?}");
}

/// From four threads at once: each call gives what the reference gives, whatever the others ask for.
#[test]
fn hostile_calls_in_threads() {
    let mut rng = Rng::for_test("hostile_calls_in_threads");
    let seeds = [0; 4].map(|_| rng.u64());
    let together = Barrier::new(seeds.len());
    let rounds = |seed| {
        let (mut rng, mut fuzz) = (Rng::new(seed), Fuzz::new());
        together.wait();
        for _ in 0..1_000 {
            fuzz.round(rng.u64());
        }
    };
    thread::scope(|scope| {
        for seed in seeds {
            scope.spawn(move || rounds(seed));
        }
    });
}

/// Pages and exports of four books, and of one book, from four threads at once.
#[test]
fn pages_in_threads() {
    let mut rng = Rng::for_test("pages_in_threads");
    let span = Span { first: 4_822, count: 40 };
    let books = [0; 4].map(|_| book_of_span(span, 80, &mut rng).bytes);
    ask_together([0, 1, 2, 3].map(|number| &books[number][..]));
    ask_together([&books[0]; 4]);
}

/// Each thread has a day and a buffer of its own.
fn ask_together(books: [&[u8]; 4]) {
    let together = &Barrier::new(books.len());
    let ask = |book: &[u8], day, choice| {
        let page = printed::printed_page(book, day, choice).expect("a right book");
        let mut file = vec![0; 70_000];
        let length = reference::export::export(book, day, 9, choice, &mut file).expect("room");
        let mut buffer = vec![0; file.len()];
        together.wait();
        for _ in 0..3_000 {
            assert_eq!(pages::print_page(book, day, choice, &mut buffer).count, page.len());
            assert!(buffer.starts_with(&page), "another page of day {day}");
            assert_eq!(export::export(book, day, 9, choice, &mut buffer).count, length);
            assert!(buffer[..length] == file[..length], "another export from day {day} on");
        }
    };
    thread::scope(|scope| {
        for ((book, day), choice) in
            books.into_iter().zip([4_822, 4_823, 4_830, 4_840]).zip([Skip, Last, Skip, Last])
        {
            scope.spawn(move || ask(book, day, choice));
        }
    });
}

/// The header declares no call that is not among them.
#[test]
fn every_call_of_the_header() {
    let mut calls: Vec<&str> = CALLS.iter().map(|call| call.0).collect();
    calls.sort();
    assert_eq!(header::calls(), calls);
}

#[test]
fn hostile_commands() {
    let mut rng = Rng::for_test("hostile_commands");
    let path = apptbook();
    let mut tally = Tally::default();
    for _ in 0..600 {
        program::round(&path, rng.u64(), &mut tally);
    }
    println!("{tally}");
    for kind in ["program: page", "program: export", "program: refusal"] {
        assert!(tally.counts[kind].values().sum::<u64>() >= 20, "{kind}");
    }
}

/// The calls that need most of it: 128 kB of stack are enough.
#[test]
fn a_small_stack() {
    let alone = Plan::random(MOST_RECORDS, &vec![1; MOST_RECORDS], &mut Rng::new(1)).lent;
    let calls = move || {
        let file = crowded(1_300, 100).bytes;
        let mut buffer = vec![0; 2_228_224];
        assert_eq!(book::read_book(&file).records, 1_400);
        assert_eq!(pages::page_line(&file, 4_822, Skip, 1_299).number, 0);
        assert_eq!(pages::print_page(&file, 4_822, Skip, &mut buffer).number, 0);
        assert_eq!(pages::next_occurrence(&file, 0, 0, Skip).number, 0);
        assert_eq!(export::export(&file, 4_822, 60, Skip, &mut buffer).number, 0);
        assert_eq!(alone.lent_to(chains::check_chains).count, MOST_RECORDS);
    };
    thread::Builder::new().stack_size(128 * 1_024).spawn(calls).expect("a thread").join().expect("no panic");
}
