//! The plain book reader alone: books by hand, and whether the makers of books know what they make.

use reference::book::{self, Book, Settings};
use reference::books::{changes, Cases, Change, Draft, File, DAMAGES, SETTINGS};
use reference::days::Date;
use reference::records::{Entry, Record, Times};
use reference::refusal::{Refusal, NO_SUCH_NUMBER};
use reference::rng::Rng;
use reference::vectors::fillers;
use reference::vectors::{every_kind, every_kind_records, with_faults};
use reference::vectors::{CUTS, FAULTS, SEVERAL_FAULTS, WHOLE_CASE};
use std::collections::BTreeMap;

/// Number and place; 0 and 0: accepted.
fn judged(file: &[u8]) -> (u32, usize) {
    match book::read_book(file) {
        Ok(_) => (0, 0),
        Err(Refusal { number, place }) => (number, place),
    }
}

#[test]
fn the_whole_case() {
    let settings = Settings { start: 480, granularity: 30, alarm: true, lead: 5, carry_forward: false };
    assert_eq!(book::read_book(&WHOLE_CASE), Ok(Book { settings, records: 1 }));
    let record = Record {
        at: 12,
        flag: true,
        entry: Entry::Dated {
            date: Date { year: 1993, month: 3, day: 15 },
            times: Times { start: 600, end: 660, lead: 5 },
        },
        text: 27..30,
        note: 30..30,
    };
    assert_eq!(&WHOLE_CASE[record.text.clone()], b"Dep");
    assert_eq!(book::record(&WHOLE_CASE, 0), Ok(record));
    assert_eq!(book::record(&WHOLE_CASE, 1), Err(NO_SUCH_NUMBER));
    assert_eq!(book::note_lines(&WHOLE_CASE, 0), Ok(0));
    assert_eq!(book::note_line(&WHOLE_CASE, 0, 0), Err(NO_SUCH_NUMBER));
}

#[test]
fn every_kind_by_hand() {
    let file = every_kind();
    let settings = Settings { start: 1_439, granularity: 720, alarm: false, lead: 30, carry_forward: true };
    assert_eq!(book::read_book(&file), Ok(Book { settings, records: 7 }));
    assert_eq!(book::records(&file), Ok(every_kind_records()));
    for (number, record) in every_kind_records().into_iter().enumerate() {
        assert_eq!(book::record(&file, number), Ok(record));
    }
    assert_eq!(book::record(&file, 7), Err(NO_SUCH_NUMBER));
}

#[test]
fn note_lines_by_hand() {
    let file = every_kind();
    assert_eq!(book::note_lines(&file, 1), Ok(3));
    assert_eq!(book::note_line(&file, 1, 0), Ok(48..49));
    assert_eq!(book::note_line(&file, 1, 1), Ok(50..50));
    assert_eq!(book::note_line(&file, 1, 2), Ok(51..52));
    assert_eq!(book::note_line(&file, 1, 3), Err(NO_SUCH_NUMBER));
    assert_eq!(book::note_lines(&file, 4), Ok(1));
    assert_eq!(book::note_line(&file, 4, 0), Ok(147..147));
    assert_eq!(book::note_lines(&file, 7), Err(NO_SUCH_NUMBER));
}

#[test]
fn faults_by_hand() {
    for &(at, bytes, number, place) in FAULTS {
        let mut file = every_kind();
        file[at..at + bytes.len()].copy_from_slice(bytes);
        assert_eq!(judged(&file), (number, place), "{bytes:?} at {at}");
        assert_eq!(book::record(&file, 99), Err(Refusal { number, place }));
    }
    for &(length, number, place) in CUTS {
        assert_eq!(judged(&every_kind()[..length]), (number, place), "cut to {length}");
    }
    assert_eq!(judged(&[every_kind(), vec![0]].concat()), (9, 183));
    for &(changes, length, number, place) in SEVERAL_FAULTS {
        assert_eq!(judged(&with_faults(changes, length)), (number, place), "{changes:?}, length {length}");
    }
}

/// What comes after the end record, or would if there were one.
mod after_the_end {
    use super::{fillers, judged};

    fn are_judged(cases: impl IntoIterator<Item = fillers::Case>) {
        for fillers::Case { name, file, answer } in cases {
            assert_eq!(judged(&file), answer, "{name}");
        }
    }

    #[test]
    fn every_number_of_fillers() {
        are_judged(fillers::every_number());
    }

    #[test]
    fn every_wrong_byte() {
        are_judged(fillers::every_wrong_one());
        are_judged(fillers::two_wrong_ones());
        are_judged(fillers::too_many_and_a_wrong_one());
    }

    #[test]
    fn the_greatest_size() {
        are_judged(fillers::the_greatest_size());
    }

    #[test]
    fn records_come_first() {
        are_judged(fillers::faults_in_records());
    }

    #[test]
    fn no_end_record() {
        are_judged(fillers::without_an_end());
    }

    #[test]
    fn padding_is_no_filler() {
        are_judged(fillers::padding());
    }
}

#[test]
fn the_longest_book() {
    let mut rng = Rng::new(1);
    let mut file = File::full(65_535, || Draft::random(1, &mut rng)).bytes;
    assert_eq!(file.len(), 65_535);
    assert_eq!(judged(&file), (0, 0));
    file.push(0);
    assert_eq!(judged(&file), (1, 0));
}

#[test]
fn every_setting() {
    for &(at, number, values) in SETTINGS {
        for value in values {
            let mut file = every_kind();
            file[at..at + value.len()].copy_from_slice(value);
            let place = if number == 0 { 0 } else { 5 };
            assert_eq!(judged(&file), (number, place), "{value:?} at {at}");
        }
    }
}

/// The changes that are refused, each with a kind of record that it fits.
fn faults(changes: &[Change]) -> impl Iterator<Item = (u8, &Change)> {
    let faults = changes.iter().filter(|change| change.number != 0);
    faults.flat_map(|change| (1..=6).filter(|&kind| change.fits(kind)).map(move |kind| (kind, change)))
}

#[test]
fn every_change_alone() {
    let mut rng = Rng::for_test("every_change_alone");
    for change in changes() {
        for kind in (1..=6).filter(|&kind| change.fits(kind)) {
            for _ in 0..20 {
                let mut records = [1, kind, 6].map(|kind| Draft::random(kind, &mut rng));
                change.apply(&mut records[1], &mut rng);
                let file = File::random(&records, &mut rng);
                let place = if change.number == 0 { 0 } else { file.places[1] };
                assert_eq!(judged(&file.bytes), (change.number, place), "{} in {kind}", change.name);
            }
        }
    }
}

/// Of two faults in a record counts the one that is asked about first: type, body, 6, 7, 8.
#[test]
fn two_faults_in_a_record() {
    const ORDER: [u32; 5] = [5, 4, 6, 7, 8];
    let mut rng = Rng::for_test("two_faults_in_a_record");
    let rank = |change: &Change| ORDER.iter().position(|&number| number == change.number);
    let changes = changes();
    for (kind, first) in faults(&changes) {
        for second in changes.iter().filter(|second| second.fits(kind) && rank(second) > rank(first)) {
            let mut record = Draft::random(kind, &mut rng);
            second.apply(&mut record, &mut rng);
            first.apply(&mut record, &mut rng);
            let file = File::random(&[record], &mut rng);
            assert_eq!(judged(&file.bytes), (first.number, 12), "{} + {}", first.name, second.name);
        }
    }
}

/// A fault counts before those of later records, after those of the file's head, before bytes after the end.
#[test]
fn a_fault_among_others() {
    let mut rng = Rng::for_test("a_fault_among_others");
    let changes = changes();
    let faults: Vec<_> = faults(&changes).collect();
    for &(kind, first) in &faults {
        let (other_kind, second) = rng.pick(&faults);
        let mut records = [2, kind, other_kind].map(|kind| Draft::random(kind, &mut rng));
        first.apply(&mut records[1], &mut rng);
        second.apply(&mut records[2], &mut rng);
        let file = File::random(&records, &mut rng);
        let answer = (first.number, file.places[1]);
        assert_eq!(judged(&file.bytes), answer, "{}, then {}", first.name, second.name);
        for (name, number, damage) in DAMAGES.iter().filter(|damage| [1, 2, 3, 9].contains(&damage.1)) {
            let mut damaged = file.clone();
            let place = damage(&mut damaged, &mut rng);
            let answer = if *number == 9 { answer } else { (*number, place) };
            assert_eq!(judged(&damaged.bytes), answer, "{} and {name}", first.name);
        }
    }
}

const FAMILIES: [&str; 12] = [
    "right",
    "right, with fillers",
    "overfilled",
    "full, style 0",
    "full, style 1",
    "full, style 2",
    "full, style 3",
    "changed often",
    "damaged often",
    "lying",
    "scratched",
    "anything",
];

/// Every change, every damage and every refusal comes up, and where the answer was known it was right.
#[test]
fn the_cases_made_at_random() {
    let cases = 60_000;
    let mut names: BTreeMap<String, usize> = BTreeMap::new();
    let mut numbers = [0; 10];
    for case in Cases::new(Rng::for_test("the_cases_made_at_random")).take(cases) {
        let answer = judged(&case.file);
        assert_eq!(case.answer.unwrap_or(answer), answer, "{}: {:?}", case.name, case.file);
        *names.entry(case.name).or_default() += 1;
        numbers[answer.0 as usize] += 1;
    }
    println!("cases by refusal number: {numbers:?}; {names:#?}");
    assert!(numbers.iter().all(|&count| count >= cases / 100), "{numbers:?}");
    let known = changes().into_iter().map(|change| change.name);
    let known = known.chain(DAMAGES.iter().map(|damage| damage.0.to_string()));
    let known = known.chain(FAMILIES.map(String::from));
    let missing: Vec<String> = known.filter(|name| !names.contains_key(name)).collect();
    assert!(missing.is_empty(), "never made: {missing:?}");
}
