//! Calendar files made at random, right ones and damaged ones, with the answer where it is known beforehand.

mod blocks;
mod damage;
mod plans;

use crate::books::letters;
use crate::calendar::{IDENTIFICATION, LONGEST};
use crate::damages::Damages;
use crate::days::LAST_DAY;
use crate::rng::Rng;
pub use damage::{damages, Apply, Damage, Part};
pub use plans::{Appointment, Day, File, Place};
use std::collections::BTreeSet;

pub struct Case {
    pub name: &'static str,
    pub file: Vec<u8>,
    /// The refusal's number and place where they are known beforehand; 0 and 0: accepted.
    pub answer: Option<(u32, usize)>,
}

/// Right and damaged files in turn, without an end. None is longer than some thousand bytes, but for those
/// that are too long.
pub struct Cases {
    rng: Rng,
    damages: Damages<Part, Apply>,
}

impl Iterator for Cases {
    type Item = Case;

    fn next(&mut self) -> Option<Case> {
        Some(match self.rng.below(1_000) {
            0..200 => self.right(),
            200..550 => self.damaged(),
            550..650 => self.damaged_often(),
            650..750 => self.cut(),
            750..900 => self.scratched(),
            _ => self.anything(),
        })
    }
}

impl Cases {
    pub fn new(rng: Rng) -> Self {
        Cases { rng, damages: Damages { all: damages(), seldom: (Part::Length, 20) } }
    }

    fn right(&mut self) -> Case {
        Case { name: "right", file: right(&mut self.rng).bytes, answer: Some((0, 0)) }
    }

    fn damaged(&mut self) -> Case {
        let (mut file, day) = busy(true, &mut self.rng);
        let &Damage { name, number, apply, .. } = self.damages.one(&mut self.rng);
        let place = apply(&mut file, day, &mut self.rng);
        Case { name, file: file.bytes, answer: Some((number, place)) }
    }

    /// Up to three parts are damaged: the first of them counts.
    fn damaged_often(&mut self) -> Case {
        let (mut file, day) = busy(true, &mut self.rng);
        let mut answer = None;
        for (number, apply) in self.damages.some(&mut self.rng) {
            answer = Some((number, apply(&mut file, day, &mut self.rng)));
        }
        Case { name: "damaged often", file: file.bytes, answer }
    }

    fn cut(&mut self) -> Case {
        let mut file = right(&mut self.rng).bytes;
        file.truncate(self.rng.within(0..=file.len()));
        Case { name: "cut", file, answer: None }
    }

    /// Some bytes of a right file are changed, most by little.
    fn scratched(&mut self) -> Case {
        let mut file = right(&mut self.rng).bytes;
        let Cases { rng, .. } = self;
        for _ in 0..rng.within(1..=3) {
            let at = rng.within(8..=file.len() - 1);
            file[at] = match rng.below(4) {
                0 => rng.u8(),
                1 => rng.pick(&[0, 1, 2, 3, 4, 5, 128, 255]),
                2 => file[at].wrapping_add(1),
                _ => file[at].wrapping_sub(1),
            };
        }
        Case { name: "scratched", file, answer: None }
    }

    /// Random bytes, most of them small, alone or after a right beginning.
    fn anything(&mut self) -> Case {
        let Cases { rng, .. } = self;
        let mut file = if rng.one_in(8) { vec![] } else { IDENTIFICATION.to_vec() };
        let (count, most) = (rng.within(0..=400), rng.pick(&[0, 1, 5, 255]));
        file.extend((0..count).map(|_| rng.within(0..=most) as u8));
        if rng.one_in(2) && file.len() > 10 {
            file[8..10].copy_from_slice(&[rng.below(4) as u8, 0]);
        }
        Case { name: "anything", file, answer: None }
    }
}

/// So many different days, rising.
fn some_days(count: usize, rng: &mut Rng) -> Vec<u16> {
    let near = rng.within(0..=usize::from(LAST_DAY) - 2 * count);
    let anywhere = rng.one_in(2);
    let mut days = BTreeSet::new();
    while days.len() < count {
        days.insert(match rng.below(20) {
            0 => rng.pick(&[0, LAST_DAY]),
            _ if anywhere => rng.within(0..=LAST_DAY.into()) as u16,
            _ => (near + rng.within(0..=2 * count)) as u16,
        });
    }
    days.into_iter().collect()
}

/// With so many appointments; every third one or so has no text, but never the first.
fn some_day(day: u16, appointments: usize, rng: &mut Rng) -> Day {
    let edges = [0, 1, 255, 256, 1_438, 1_439];
    let minute = |rng: &mut Rng| if rng.one_in(3) { rng.pick(&edges) } else { rng.within(0..=1_439) as u16 };
    let mut minutes: Vec<u16> = (0..appointments).map(|_| minute(rng)).collect();
    minutes.sort();
    let appointment = |(number, minute)| {
        let longest = rng.pick(&[0, 3, 27, 60, 250]).max(usize::from(number == 0));
        let text = letters(rng.within(usize::from(number == 0)..=longest), rng);
        Appointment { flags: rng.below(4) as u8, minute, text }
    };
    let appointments = minutes.into_iter().enumerate().map(appointment).collect();
    let notes = rng.pick(&[0, 0, 1, 54, 64, 500]);
    Day { day, notes: rng.bytes(notes), appointments }
}

/// A right file of up to twelve days.
pub fn right(rng: &mut Rng) -> File {
    let count = rng.within(0..=12);
    let days = some_days(count, rng).into_iter();
    let days = days.map(|day| some_day(day, rng.pick(&[0, 1, 2, 5, 9]), rng)).collect();
    File::random(days, rng)
}

/// A right file in which every day has two appointments or more, and the number of a day, not the first.
pub fn busy(any_order: bool, rng: &mut Rng) -> (File, usize) {
    let count = rng.within(2..=8);
    let days = some_days(count, rng).into_iter();
    let days = days.map(|day| some_day(day, rng.within(2..=6), rng)).collect();
    let file = if any_order { File::random(days, rng) } else { File::plain(days, rng) };
    (file, rng.within(1..=count - 1))
}

/// A right file of 2,228,224 bytes: of style 0 with as many days as there can be, of styles 1 and 2 with the
/// longest lists, of long and of short appointments, of style 3 with the longest notes too.
pub fn full(style: usize, rng: &mut Rng) -> File {
    let (count, appointments, text, notes) = match style {
        0 => (27_593, 1, 49, 0),
        1 => (32, 257, 250, 0),
        2 => (32, 13_107, 0, 0),
        _ => (16, 257, 250, 65_535),
    };
    let appointment = |number: usize, rng: &mut Rng| Appointment {
        flags: rng.below(4) as u8,
        minute: (number * 1_440 / appointments) as u16,
        text: letters(text, rng),
    };
    let day = |number: usize| Day {
        day: (number * usize::from(LAST_DAY) / (count - 1)) as u16,
        notes: rng.bytes(notes),
        appointments: (0..appointments).map(|number| appointment(number, rng)).collect(),
    };
    let days = (0..count).map(day).collect();
    let mut file = File::plain(days, rng);
    file.bytes.resize(LONGEST, 7);
    file
}
