//! The plain Calendar reader alone: files by hand, and whether the makers of files know what they make.

use reference::calendar::{self, Appointment, Descriptor};
use reference::calendars::{busy, damages, full, right, Cases, Damage, File, Part};
use reference::days::LAST_DAY;
use reference::refusal::{Refusal, NO_SUCH_NUMBER, OUT_OF_RANGE};
use reference::rng::Rng;
use reference::vectors::calendars::{empty, offsets, two_days, whole_case};
use reference::vectors::calendars::{CUTS, FAULTS, IGNORED, TWO_FAULTS};
use std::collections::BTreeMap;
use std::ops::Range;

/// Number and place; 0 and 0: accepted.
fn judged(file: &[u8]) -> (u32, usize) {
    match calendar::read_calendar(file) {
        Ok(_) => (0, 0),
        Err(Refusal { number, place }) => (number, place),
    }
}

fn appointment(minute: u16, flags: u16, text: Range<usize>) -> Appointment {
    Appointment { minute, flags, text }
}

#[test]
fn the_whole_case() {
    let file = whole_case();
    assert_eq!(file.len(), 192);
    assert_eq!(calendar::read_calendar(&file), Ok(1));
    assert_eq!(calendar::calendar_day(&file, 0), Ok(Descriptor { day: 4_822, offset: 2 }));
    assert_eq!(calendar::calendar_day(&file, 1), Err(NO_SUCH_NUMBER));
    assert_eq!(calendar::day_appointments(&file, 4_822), Ok(vec![appointment(600, 1, 142..145)]));
    assert_eq!(&file[142..145], b"Dep");
    assert_eq!(calendar::calendar_appointments(&file, 4_822), Ok(1));
    assert_eq!(calendar::calendar_appointment(&file, 4_822, 0), Ok(appointment(600, 1, 142..145)));
    assert_eq!(calendar::calendar_appointment(&file, 4_822, 1), Err(NO_SUCH_NUMBER));
    assert_eq!(calendar::calendar_appointments(&file, 4_823), Ok(0));
    assert_eq!(calendar::calendar_appointment(&file, 4_823, 0), Err(NO_SUCH_NUMBER));
}

#[test]
fn no_days() {
    for file in [empty(), [&empty()[..8], &[0; 56]].concat(), [empty(), vec![9; 77]].concat()] {
        assert_eq!(calendar::read_calendar(&file), Ok(0));
        assert_eq!(calendar::calendar_day(&file, 0), Err(NO_SUCH_NUMBER));
        assert_eq!(calendar::calendar_appointments(&file, 0), Ok(0));
        assert_eq!(calendar::calendar_appointments(&file, 43_829), Ok(0));
        assert_eq!(calendar::calendar_appointments(&file, 43_830), Err(OUT_OF_RANGE));
        assert_eq!(calendar::calendar_appointment(&file, 43_830, 0), Err(OUT_OF_RANGE));
        assert_eq!(calendar::calendar_appointment(&file, 43_829, 0), Err(NO_SUCH_NUMBER));
    }
    assert_eq!(empty().len(), 64);
}

fn shows_two_days(file: &[u8]) {
    assert_eq!(calendar::read_calendar(file), Ok(2));
    assert_eq!(calendar::calendar_day(file, 0), Ok(Descriptor { day: 4_822, offset: 3 }));
    assert_eq!(calendar::calendar_day(file, 1), Ok(Descriptor { day: 4_823, offset: 2 }));
    assert_eq!(calendar::calendar_day(file, 2), Err(NO_SUCH_NUMBER));
    let both = vec![appointment(600, 1, 208..211), appointment(601, 2, 216..216)];
    assert_eq!(calendar::day_appointments(file, 4_822), Ok(both));
    assert_eq!(calendar::day_appointments(file, 4_823), Ok(vec![]));
    assert_eq!(calendar::day_appointments(file, 4_821), Ok(vec![]));
}

fn changed(changes: &[(usize, &[u8])]) -> Vec<u8> {
    let mut file = two_days();
    for (at, bytes) in changes {
        file[*at..at + bytes.len()].copy_from_slice(bytes);
    }
    file
}

#[test]
fn two_days_by_hand() {
    assert_eq!(two_days().len(), 217);
    shows_two_days(&two_days());
    for &ignored in IGNORED {
        shows_two_days(&changed(&[ignored]));
    }
    for more in [1, 63, 64, 5_000] {
        shows_two_days(&[two_days(), vec![0xB5; more]].concat());
    }
    // One descriptor less, one appointment less, all flags, minutes equal, the last minute.
    assert_eq!(calendar::read_calendar(&changed(&[(8, &[1])])), Ok(1));
    let shown = |change| calendar::day_appointments(&changed(&[change]), 4_822).expect("a right file");
    assert_eq!(shown((200, &[8])), [appointment(600, 1, 208..211)]);
    assert_eq!(shown((200, &[0])), []);
    assert_eq!(shown((205, &[3]))[0], appointment(600, 3, 208..211));
    assert_eq!(shown((206, &[0x59]))[0], appointment(601, 1, 208..211));
    assert_eq!(shown((214, &[0x9F, 5]))[1], appointment(1_439, 2, 216..216));
}

#[test]
fn faults_by_hand() {
    for &(at, bytes, number, place) in FAULTS {
        let file = changed(&[(at, bytes)]);
        assert_eq!(judged(&file), (number, place), "{bytes:?} at {at}");
        let refusal = Refusal { number, place };
        assert_eq!(calendar::calendar_day(&file, 9), Err(refusal));
        assert_eq!(calendar::calendar_appointments(&file, 65_535), Err(refusal));
        assert_eq!(calendar::calendar_appointment(&file, 65_535, 9), Err(refusal));
    }
    for (changes, number, place) in TWO_FAULTS {
        assert_eq!(judged(&changed(changes)), (*number, *place), "{changes:?}");
    }
    for &(length, number, place) in CUTS {
        assert_eq!(judged(&two_days()[..length]), (number, place), "cut to {length}");
    }
}

#[test]
fn where_a_block_may_stand() {
    for (row, (file, number, place)) in offsets().into_iter().enumerate() {
        assert_eq!(judged(&file), (number, place), "row {row}");
    }
}

#[test]
fn the_longest_file() {
    let mut file = two_days();
    file.resize(2_228_224, 0);
    assert_eq!(judged(&file), (0, 0));
    file.push(0);
    assert_eq!(judged(&file), (20, 0));
    file[0] = 0;
    assert_eq!(judged(&file), (20, 0));
}

/// The reader gives what the file was made of.
fn is_read_back(file: &File, asked: impl Fn(usize) -> bool) {
    assert_eq!(calendar::read_calendar(&file.bytes), Ok(file.days.len()));
    for (number, (day, place)) in file.days.iter().zip(&file.places).enumerate() {
        if !asked(number) && number + 1 < file.days.len() {
            continue;
        }
        let descriptor = Descriptor { day: day.day, offset: (place.block / 64) as u16 };
        assert_eq!(calendar::calendar_day(&file.bytes, number), Ok(descriptor));
        let read = calendar::day_appointments(&file.bytes, day.day).expect("a right file");
        assert_eq!(read.len(), day.appointments.len());
        for (read, made) in read.iter().zip(&day.appointments) {
            assert_eq!((read.minute, read.flags), (made.minute, made.flags.into()));
            assert_eq!(file.bytes[read.text.clone()], made.text);
        }
        let after = calendar::day_appointments(&file.bytes, (day.day + 1).min(LAST_DAY));
        let known = file.days.iter().find(|other| other.day == (day.day + 1).min(LAST_DAY));
        assert_eq!(after.map(|list| list.len()), Ok(known.map_or(0, |day| day.appointments.len())));
    }
    assert_eq!(calendar::calendar_day(&file.bytes, file.days.len()), Err(NO_SUCH_NUMBER));
}

#[test]
fn right_files_are_read_back() {
    let mut rng = Rng::for_test("right_files_are_read_back");
    for _ in 0..3_000 {
        is_read_back(&right(&mut rng), |_| true);
        is_read_back(&busy(true, &mut rng).0, |_| true);
    }
}

#[test]
fn full_files_are_read_back() {
    let mut rng = Rng::for_test("full_files_are_read_back");
    for style in 0..4 {
        let mut file = full(style, &mut rng);
        assert_eq!(file.bytes.len(), 2_228_224);
        is_read_back(&file, |number| number % 2_999 == 0);
        file.bytes.push(0);
        assert_eq!(judged(&file.bytes), (20, 0));
    }
}

/// Of two damaged parts the first counts, of two damaged days the earlier one.
#[test]
fn two_damages() {
    let mut rng = Rng::for_test("two_damages");
    let damages = damages();
    for first in &damages {
        for second in &damages {
            let (mut file, day) = busy(false, &mut rng);
            let of_days =
                first.part == Part::Day && second.part == Part::Day && !cuts(first) && !cuts(second);
            if of_days && day + 1 < file.days.len() {
                (second.apply)(&mut file, day + 1, &mut rng);
            } else if first.part < second.part {
                (second.apply)(&mut file, day, &mut rng);
            }
            let place = (first.apply)(&mut file, day, &mut rng);
            assert_eq!(judged(&file.bytes), (first.number, place), "{}, {}", first.name, second.name);
        }
    }
}

/// A cut is found at the first day that it touches, whichever day was meant.
fn cuts(damage: &Damage) -> bool {
    damage.name.starts_with("cut")
}

/// Every damage and every refusal comes up, and where the answer was known it was right.
#[test]
fn the_cases_made_at_random() {
    let cases = 60_000;
    let mut names: BTreeMap<&str, usize> = BTreeMap::new();
    let mut numbers: BTreeMap<u32, usize> = BTreeMap::new();
    for case in Cases::new(Rng::for_test("the_cases_made_at_random")).take(cases) {
        let answer = judged(&case.file);
        assert_eq!(case.answer.unwrap_or(answer), answer, "{}: {:?}", case.name, case.file);
        *names.entry(case.name).or_default() += 1;
        *numbers.entry(answer.0).or_default() += 1;
    }
    println!("cases by refusal number: {numbers:?}; {names:#?}");
    assert!([0, 21, 22, 23, 24].iter().all(|number| numbers[number] >= cases / 30), "{numbers:?}");
    assert!(numbers[&20] >= 50, "{numbers:?}");
    let families = ["right", "damaged often", "cut", "scratched", "anything"].into_iter();
    let missing: Vec<_> = damages().iter().map(|damage| damage.name).chain(families).collect();
    let missing: Vec<_> = missing.into_iter().filter(|name| !names.contains_key(name)).collect();
    assert!(missing.is_empty(), "never made: {missing:?}");
}
