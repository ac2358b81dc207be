//! Calendar files still to be written: their days, and where the parts of a day will stand.
//!
//! Everything that a reader is to ignore is made at random.

use crate::rng::Rng;
use std::ops::Range;

#[derive(Clone)]
pub struct Appointment {
    pub flags: u8,
    pub minute: u16,
    pub text: Vec<u8>,
}

#[derive(Clone)]
pub struct Day {
    pub day: u16,
    pub notes: Vec<u8>,
    pub appointments: Vec<Appointment>,
}

/// Where the parts of a day stand.
#[derive(Clone, Default)]
pub struct Place {
    pub descriptor: usize,
    pub block: usize,
    /// Its appointments, all of them and each.
    pub list: Range<usize>,
    pub appointments: Vec<Range<usize>>,
}

#[derive(Clone)]
pub struct File {
    pub bytes: Vec<u8>,
    pub days: Vec<Day>,
    pub places: Vec<Place>,
}

impl File {
    /// With the blocks in order, one behind the other.
    pub fn plain(days: Vec<Day>, rng: &mut Rng) -> Self {
        let mut file = File::without_blocks(days, rng);
        for number in 0..file.days.len() {
            file.put_alone(number, rng);
        }
        file
    }

    /// With blocks in any order, gaps between them, some blocks that share bytes, and bytes behind the last.
    pub fn random(days: Vec<Day>, rng: &mut Rng) -> Self {
        let mut groups: Vec<Vec<usize>> = vec![];
        for number in 0..days.len() {
            match groups.last_mut() {
                Some(group) if rng.one_in(6) => group.push(number),
                _ => groups.push(vec![number]),
            }
        }
        if rng.one_in(2) {
            rng.shuffle(&mut groups);
        }
        let mut file = File::without_blocks(days, rng);
        for group in groups {
            if rng.one_in(4) {
                let gap = rng.within(0..=300);
                file.bytes.extend(rng.bytes(gap));
            }
            match group[..] {
                [number] => file.put_alone(number, rng),
                [outer, inner] if rng.one_in(2) => file.put_nested(outer, inner, rng),
                _ => file.put_shared(&group, rng),
            }
        }
        let more = rng.pick(&[0, 0, 1, 7, 63, 64, 200]);
        file.bytes.extend(rng.bytes(more));
        file
    }

    fn without_blocks(days: Vec<Day>, rng: &mut Rng) -> Self {
        let mut bytes = vec![0xB5, 0xA2, 0xB0, 0xB3, 0xB3, 0xB0, 0xA2, 0xB5];
        bytes.extend((days.len() as u16).to_le_bytes());
        bytes.extend(rng.bytes(64 - 10));
        let mut places = vec![];
        for day in &days {
            places.push(Place { descriptor: bytes.len(), ..Default::default() });
            bytes.extend(day.day.to_le_bytes());
            bytes.extend(rng.bytes(10));
        }
        File { bytes, days, places }
    }

    fn fill(&mut self, rng: &mut Rng) -> usize {
        while self.bytes.len() % 64 != 0 {
            self.bytes.push(rng.u8());
        }
        self.bytes.len()
    }

    /// The block's five words, at the end of the file, and its offset into the descriptor.
    fn put_head(&mut self, number: usize, notes: usize) {
        let block = self.bytes.len();
        let place = &mut self.places[number];
        place.block = block;
        let at = place.descriptor + 6;
        self.put_word(at, block / 64);
        let Day { day, appointments, .. } = &self.days[number];
        let length = appointments.iter().map(|appointment| appointment.text.len() + 5).sum();
        for word in [0, (*day).into(), 1, notes, length] {
            self.bytes.extend((word as u16).to_le_bytes());
        }
    }

    /// At the end of the file.
    fn put_list(&mut self, number: usize) {
        let place = &mut self.places[number];
        place.list.start = self.bytes.len();
        for Appointment { flags, minute, text } in &self.days[number].appointments {
            let at = self.bytes.len();
            self.bytes.extend([(text.len() + 5) as u8, *flags]);
            self.bytes.extend(minute.to_le_bytes());
            self.bytes.extend(text);
            self.bytes.push(0);
            place.appointments.push(at..self.bytes.len());
        }
        place.list.end = self.bytes.len();
    }

    fn put_alone(&mut self, number: usize, rng: &mut Rng) {
        self.fill(rng);
        self.put_head(number, self.days[number].notes.len());
        self.bytes.extend(&self.days[number].notes);
        self.put_list(number);
    }

    /// The inner block stands in the outer one's notes.
    fn put_nested(&mut self, outer: usize, inner: usize, rng: &mut Rng) {
        let block = self.fill(rng);
        self.put_head(outer, 0);
        self.put_alone(inner, rng);
        let notes = self.bytes.len() - (block + 10);
        self.put_word(block + 6, notes);
        self.put_list(outer);
    }

    /// Several blocks with one list: each one's notes go up to it, over the blocks between.
    fn put_shared(&mut self, group: &[usize], rng: &mut Rng) {
        let list = self.fill(rng) + 64 * group.len();
        for &number in group {
            self.days[number].appointments = self.days[group[0]].appointments.clone();
            let block = self.fill(rng);
            self.put_head(number, list - (block + 10));
        }
        self.fill(rng);
        self.put_list(group[0]);
        let Place { list, appointments, .. } = self.places[group[0]].clone();
        for &number in &group[1..] {
            let place = &mut self.places[number];
            (place.list, place.appointments) = (list.clone(), appointments.clone());
        }
    }

    pub fn put_word(&mut self, at: usize, value: usize) {
        self.bytes[at..at + 2].copy_from_slice(&(value as u16).to_le_bytes());
    }
}
