//! Calendar files written out by hand.

use super::{compare, count, is_refused_file};
use apptbook::raw::calendar::{self as proved, AppointmentAnswer, DescriptorAnswer};
use reference::answers::IntoAnswer;
use reference::refusal::{Refusal, NO_SUCH_NUMBER};
use reference::vectors::calendars::{empty, offsets, two_days, whole_case};
use reference::vectors::calendars::{CUTS, FAULTS, IGNORED, TWO_FAULTS};

fn descriptor(day: u16, offset: u16) -> DescriptorAnswer {
    DescriptorAnswer { number: 0, place: 0, day, offset }
}

fn appointment(minute: u16, flags: u16, text_at: usize, text_length: usize) -> AppointmentAnswer {
    AppointmentAnswer { number: 0, place: 0, text_at, text_length, minute, flags }
}

#[test]
fn the_whole_case() {
    let file = whole_case();
    assert_eq!(proved::read_calendar(&file), count(1));
    assert_eq!(proved::calendar_day(&file, 0), descriptor(4_822, 2));
    assert_eq!(proved::calendar_day(&file, 1), DescriptorAnswer { number: 10, ..Default::default() });
    assert_eq!(proved::calendar_appointments(&file, 4_822), count(1));
    assert_eq!(proved::calendar_appointments(&file, 4_823), count(0));
    assert_eq!(proved::calendar_appointment(&file, 4_822, 0), appointment(600, 1, 142, 3));
    let none = AppointmentAnswer { number: 10, ..Default::default() };
    assert_eq!(proved::calendar_appointment(&file, 4_822, 1), none);
    assert_eq!(proved::calendar_appointment(&file, 4_823, 0), none);
    compare(&file, "the whole case");
}

#[test]
fn no_days() {
    for file in [empty(), [&empty()[..8], &[0; 56]].concat(), [empty(), vec![9; 77]].concat()] {
        assert_eq!(proved::read_calendar(&file), count(0));
        assert_eq!(proved::calendar_day(&file, 0), Err(NO_SUCH_NUMBER).answer());
        assert_eq!(proved::calendar_appointments(&file, 4_822), count(0));
        compare(&file, "no days");
    }
}

fn changed(changes: &[(usize, &[u8])]) -> Vec<u8> {
    let mut file = two_days();
    for (at, bytes) in changes {
        file[*at..at + bytes.len()].copy_from_slice(bytes);
    }
    file
}

fn shows_two_days(file: &[u8]) {
    assert_eq!(proved::read_calendar(file), count(2));
    assert_eq!(proved::calendar_day(file, 0), descriptor(4_822, 3));
    assert_eq!(proved::calendar_day(file, 1), descriptor(4_823, 2));
    assert_eq!(proved::calendar_appointments(file, 4_822), count(2));
    assert_eq!(proved::calendar_appointment(file, 4_822, 0), appointment(600, 1, 208, 3));
    assert_eq!(proved::calendar_appointment(file, 4_822, 1), appointment(601, 2, 216, 0));
    assert_eq!(proved::calendar_appointments(file, 4_823), count(0));
    assert_eq!(proved::calendar_appointments(file, 4_821), count(0));
    compare(file, "two days");
}

#[test]
fn two_days_by_hand() {
    shows_two_days(&two_days());
    for &ignored in IGNORED {
        shows_two_days(&changed(&[ignored]));
    }
    for more in [1, 63, 64, 5_000] {
        shows_two_days(&[two_days(), vec![0xB5; more]].concat());
    }
    for change in [(8, &[1][..]), (200, &[8]), (200, &[0]), (205, &[3]), (206, &[0x59]), (214, &[0x9F, 5])] {
        assert_eq!(compare(&changed(&[change]), "accepted too"), 0);
    }
}

#[test]
fn faults_by_hand() {
    for &(at, bytes, number, place) in FAULTS {
        println!("{bytes:?} at {at}");
        is_refused_file(&changed(&[(at, bytes)]), Refusal { number, place });
    }
    for &(changes, number, place) in TWO_FAULTS {
        println!("{changes:?}");
        is_refused_file(&changed(&changes), Refusal { number, place });
    }
    for &(length, number, place) in CUTS {
        println!("cut to {length}");
        is_refused_file(&two_days()[..length], Refusal { number, place });
    }
}

#[test]
fn where_a_block_may_stand() {
    for (row, (file, number, place)) in offsets().into_iter().enumerate() {
        println!("row {row}");
        if number != 0 {
            is_refused_file(&file, Refusal { number, place });
        }
        assert_eq!(compare(&file, "bare"), number);
    }
}

#[test]
fn the_longest_file() {
    let mut file = two_days();
    file.resize(2_228_224, 0);
    shows_two_days(&file);
    file.push(0);
    is_refused_file(&file, Refusal { number: 20, place: 0 });
    file[0] = 0;
    is_refused_file(&file, Refusal { number: 20, place: 0 });
}
