//! Calendar files made at random, right and damaged ones, small and of full size.

use super::{compare, compare_some};
use reference::calendars::{busy, damages, full, right, Cases};
use reference::rng::Rng;
use reference::vectors::calendars::{two_days, whole_case};
use std::collections::BTreeMap;

#[test]
fn random_files() {
    let mut numbers: BTreeMap<u32, usize> = BTreeMap::new();
    for case in Cases::new(Rng::for_test("random_files")).take(40_000) {
        let number = compare(&case.file, case.name);
        assert_eq!(case.answer.map_or(number, |answer| answer.0), number, "{}", case.name);
        *numbers.entry(number).or_default() += 1;
    }
    println!("files by refusal number: {numbers:?}");
    assert!([0, 20, 21, 22, 23, 24].iter().all(|number| numbers[number] >= 50), "{numbers:?}");
}

/// Each damage alone, and each pair.
#[test]
fn every_damage() {
    let mut rng = Rng::for_test("every_damage");
    let damages = damages();
    for first in &damages {
        for _ in 0..20 {
            let (mut file, day) = busy(true, &mut rng);
            (first.apply)(&mut file, day, &mut rng);
            assert_eq!(compare(&file.bytes, first.name), first.number);
        }
        for second in damages.iter().filter(|second| second.part > first.part) {
            let (mut file, day) = busy(true, &mut rng);
            (second.apply)(&mut file, day, &mut rng);
            (first.apply)(&mut file, day, &mut rng);
            assert_eq!(compare(&file.bytes, first.name), first.number, "{}", second.name);
        }
    }
}

fn some_files(count: usize, rng: &mut Rng) -> Vec<Vec<u8>> {
    let made = (0..).map(|_| right(rng).bytes).filter(|file| file.len() < 1_500);
    [whole_case(), two_days()].into_iter().chain(made).take(count).collect()
}

/// Truncation at every byte.
#[test]
fn every_cut() {
    for file in some_files(40, &mut Rng::for_test("every_cut")) {
        for length in 0..file.len() {
            compare(&file[..length], "cut");
        }
    }
}

/// Every byte of the files by hand changed to every value, and of some more files to a few.
#[test]
fn every_byte() {
    let few = |byte: u8| vec![0, 1, 128, 255, byte.wrapping_add(1), byte.wrapping_sub(1)];
    for (number, mut file) in some_files(12, &mut Rng::for_test("every_byte")).into_iter().enumerate() {
        for at in 0..file.len() {
            let byte = file[at];
            for value in if number < 2 { (0..=255).collect() } else { few(byte) } {
                file[at] = value;
                compare(&file, "a byte changed");
            }
            file[at] = byte;
        }
    }
}

#[test]
fn the_longest_files() {
    let mut rng = Rng::for_test("the_longest_files");
    for style in 0..4 {
        let mut file = full(style, &mut rng);
        let step = (file.days.len() / 4).max(1);
        assert_eq!(compare_some(&file.bytes, "full", |number| number % step == 0), 0);
        for damage in damages().iter().filter(|damage| damage.number > 20).step_by(3) {
            let mut damaged = file.clone();
            let day = damaged.days.len() - 1;
            let appointments = &damaged.days[day].appointments;
            if appointments.len() > 1 && !appointments[0].text.is_empty() {
                (damage.apply)(&mut damaged, day, &mut rng);
                compare_some(&damaged.bytes, damage.name, |_| false);
            }
        }
        file.bytes.push(0);
        assert_eq!(compare(&file.bytes, "one byte too many"), 20);
    }
}
