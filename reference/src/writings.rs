//! Runs of writing calls made at random, with faults and strange states among them.
//!
//! A record to be added is made from a draft, so its bytes are known without a writer.

mod faults;

use crate::answers::IntoAnswer;
use crate::book::{self, LONGEST};
use crate::books::{full_note, letters, Draft, File};
use crate::records::HEAD;
use crate::rng::Rng;
use crate::writer::Writer;
use apptbook::raw::book::{BookAnswer, RecordAnswer};
pub use faults::{faults, Fault, BAD_SETTINGS};
use std::slice;

/// Bytes before and after a lent buffer, to see that they stay as they are.
pub const MARGIN: usize = 512;

pub struct Run {
    pub name: &'static str,
    /// The lent buffer's length.
    pub room: usize,
    pub calls: Vec<Call>,
}

impl Run {
    /// Bytes to lend the buffer from, with a margin on either side.
    pub fn bytes(&self) -> Vec<u8> {
        pattern(self.room)
    }
}

pub enum Call {
    /// Whether the settings are right.
    Open(BookAnswer, bool),
    Add(Box<Item>),
    Close,
    /// No call: the next one gets this state.
    Take(Writer),
}

/// A record to be added, as it is handed over.
#[derive(Clone)]
pub struct Item {
    pub record: RecordAnswer,
    pub text: Vec<u8>,
    pub note: Vec<u8>,
    /// What is to be written, when it has no faults.
    pub bytes: Vec<u8>,
    /// Names and numbers, by number.
    pub faults: Vec<(String, u32)>,
}

impl Item {
    pub fn new(draft: &Draft) -> Self {
        let file = File::new([0, 0, 1, 0, 0, 0, 0], slice::from_ref(draft)).bytes;
        let file = bare(&file);
        Item {
            record: book::record(&file, 0).answer(),
            text: draft.text.clone(),
            note: draft.note.clone(),
            bytes: file[12..file.len() - 3].to_vec(),
            faults: vec![],
        }
    }

    pub fn random(rng: &mut Rng) -> Self {
        let kind = rng.within(1..=6) as u8;
        Item::new(&Draft { padding: vec![], ..Draft::random(kind, rng) })
    }

    /// A dated record of 15 to 482 bytes.
    pub fn of_length(length: usize, rng: &mut Rng) -> Self {
        let text = letters((length - 15).min(27), rng);
        let note = full_note(rng)[..length - 15 - text.len()].to_vec();
        Item::new(&Draft { text, note, padding: vec![], ..Draft::random(1, rng) })
    }

    /// Gives it some faults, at most one of each number.
    fn spoil(&mut self, faults: &[Fault], rng: &mut Rng) {
        let (kind, which) = (self.record.kind, rng.within(1..=7));
        // In this order, so that a later one cannot mend an earlier one that counts before it.
        for number in [8, 7, 6].into_iter().filter(|number| which & (1 << (number - 6)) != 0) {
            let fitting = |fault: &&Fault| fault.number == number && fault.fits(kind);
            let fitting: Vec<_> = faults.iter().filter(fitting).collect();
            let long = rng.one_in(20);
            let fault = loop {
                let fault = rng.pick(&fitting);
                if long || !fault.is_long() {
                    break fault;
                }
            };
            fault.apply(self, rng);
        }
        self.faults.sort_by_key(|fault| fault.1);
    }

    /// Puts anything into what is to be ignored.
    fn soil(&mut self, rng: &mut Rng) {
        let record = &mut self.record;
        for field in foreign_fields(record) {
            *field = rng.u16();
        }
        if record.kind != 6 {
            record.checked_off = rng.one_in(2);
        }
        record.number = rng.u64() as u32;
        for field in [
            &mut record.place,
            &mut record.at,
            &mut record.text_at,
            &mut record.text_length,
            &mut record.note_at,
            &mut record.note_length,
        ] {
            *field = rng.u64() as usize;
        }
    }
}

/// Those that its kind does not have.
fn foreign_fields(record: &mut RecordAnswer) -> Vec<&mut u16> {
    let kind = record.kind;
    let fields: [(&mut u16, &[u16]); 14] = [
        (&mut record.weekday, &[2, 4]),
        (&mut record.week, &[4]),
        (&mut record.month, &[5]),
        (&mut record.day, &[3, 5]),
        (&mut record.priority, &[6]),
        (&mut record.start, &[1, 2, 3, 4, 5]),
        (&mut record.end, &[1, 2, 3, 4, 5]),
        (&mut record.lead, &[1, 2, 3, 4, 5]),
        (&mut record.last_year, &[2, 3, 4, 5]),
        (&mut record.last_month, &[2, 3, 4, 5]),
        (&mut record.last_day, &[2, 3, 4, 5]),
        (&mut record.check_off_year, &[6]),
        (&mut record.check_off_month, &[6]),
        (&mut record.check_off_day, &[6]),
    ];
    fields.into_iter().filter(|(_, kinds)| !kinds.contains(&kind)).map(|(field, _)| field).collect()
}

/// Runs of all families in turn, without an end.
pub struct Runs {
    rng: Rng,
    faults: Vec<Fault>,
}

impl Iterator for Runs {
    type Item = Run;

    fn next(&mut self) -> Option<Run> {
        Some(match self.rng.below(1_000) {
            0..2 => self.full(),
            2..250 => self.right(),
            250..500 => self.faulty(),
            500..600 => self.single(),
            _ => self.strange(),
        })
    }
}

impl Runs {
    pub fn new(rng: Rng) -> Self {
        Runs { rng, faults: faults() }
    }

    fn settings(&mut self) -> BookAnswer {
        let Runs { rng, .. } = self;
        BookAnswer {
            number: rng.u64() as u32,
            place: rng.u64() as usize,
            records: rng.u64() as usize,
            start: if rng.one_in(4) { rng.pick(&[0, 1_439]) } else { rng.within(0..=1_439) as u16 },
            granularity: if rng.one_in(4) { rng.pick(&[1, 720]) } else { rng.within(1..=720) as u16 },
            lead: if rng.one_in(4) { rng.pick(&[0, 30]) } else { rng.within(0..=30) as u16 },
            alarm: rng.one_in(2),
            carry_forward: rng.one_in(2),
        }
    }

    fn opening(&mut self, right: bool) -> Call {
        let mut settings = self.settings();
        if !right {
            let (field, values) = self.rng.pick(BAD_SETTINGS);
            *field(&mut settings) = self.rng.pick(values);
        }
        Call::Open(settings, right)
    }

    fn item(&mut self) -> Item {
        let mut item = Item::random(&mut self.rng);
        if self.rng.one_in(2) {
            item.soil(&mut self.rng);
        }
        item
    }

    fn spoiled(&mut self) -> Item {
        let mut item = self.item();
        item.spoil(&self.faults, &mut self.rng);
        item
    }

    fn items(&mut self) -> Vec<Item> {
        let most = self.rng.pick(&[0, 1, 2, 4, 8]);
        (0..self.rng.within(0..=most)).map(|_| self.item()).collect()
    }

    fn calls(&mut self, items: Vec<Item>) -> Vec<Call> {
        let adds = items.into_iter().map(|item| Call::Add(item.into()));
        [self.opening(true)].into_iter().chain(adds).chain([Call::Close]).collect()
    }

    /// Just enough, or a little less or more, or much more.
    fn room(&mut self, calls: &[Call]) -> usize {
        let Runs { rng, .. } = self;
        let exact = 15 + calls.iter().map(length).sum::<usize>();
        match rng.below(16) {
            0..6 => exact,
            6 => exact - 1,
            7 => exact - rng.within(1..=15),
            8 => rng.within(0..=exact),
            9 => rng.within(0..=16),
            10 => rng.pick(&[LONGEST - 1, LONGEST, LONGEST + 1, LONGEST + 4, 70_000]),
            _ => exact + rng.within(0..=600),
        }
    }

    /// Nothing but the room can be amiss.
    fn right(&mut self) -> Run {
        let items = self.items();
        let calls = self.calls(items);
        Run { name: "right", room: self.room(&calls), calls }
    }

    /// Records with faults come in between, and are refused.
    fn faulty(&mut self) -> Run {
        let items = self.items();
        let mut calls = self.calls(items);
        for _ in 0..self.rng.within(1..=4) {
            let at = self.rng.within(0..=calls.len());
            let item = self.spoiled();
            calls.insert(at, Call::Add(item.into()));
        }
        Run { name: "faulty", room: self.room(&calls), calls }
    }

    /// One call by itself, with a strange state.
    fn single(&mut self) -> Run {
        let call = match self.rng.below(6) {
            0 => {
                let right = self.rng.one_in(2);
                self.opening(right)
            }
            1 => Call::Close,
            2 => Call::Add(self.spoiled().into()),
            _ => Call::Add(self.item().into()),
        };
        let room = self.room(slice::from_ref(&call));
        let state = Call::Take(self.state(room, length(&call)));
        Run { name: "single", room, calls: vec![state, call] }
    }

    /// Any call at any time, and states that no call gave.
    fn strange(&mut self) -> Run {
        let items = self.items();
        let mut calls = self.calls(items);
        let room = self.room(&calls);
        for _ in 0..self.rng.within(1..=6) {
            let at = self.rng.within(0..=calls.len());
            let call = match self.rng.below(10) {
                0 => self.opening(true),
                1 => self.opening(false),
                2 => Call::Close,
                3 => Call::Add(self.item().into()),
                4..7 => Call::Add(self.spoiled().into()),
                _ => Call::Take(self.state(room, calls.get(at).map_or(0, length))),
            };
            calls.insert(at, call);
        }
        Run { name: "strange", room, calls }
    }

    /// Up to 65,535 bytes or one more, and then a little more.
    fn full(&mut self) -> Run {
        let Runs { rng, .. } = self;
        let over = rng.below(2) as usize;
        let items = filling(LONGEST + over, rng);
        let room = LONGEST + over + rng.within(0..=2) - rng.within(0..=1);
        let mut calls = self.calls(items);
        calls.push(Call::Close);
        calls.insert(calls.len() - 2, Call::Add(self.item().into()));
        Run { name: "full", room, calls }
    }

    /// Near what has room, near what is open, or anything. `length`: of the record to be added.
    fn state(&mut self, room: usize, length: usize) -> Writer {
        let Runs { rng, .. } = self;
        let near = match rng.below(12) {
            0..5 => room.wrapping_sub(length + 3),
            5 => room,
            6 => LONGEST.wrapping_sub(length + 3),
            7 => 12,
            8 => rng.pick(&[0, 1, 11, 12, 1 << 16, (1 << 16) + 12, 1 << 32, (1 << 32) + 12, 1 << 63]),
            9 => usize::MAX - rng.within(0..=length + 16),
            10 => rng.within(0..=room),
            _ => rng.u64() as usize,
        };
        let used = match rng.below(6) {
            0 => near.wrapping_add(1),
            1 => near.wrapping_sub(1),
            2 => near.wrapping_sub(rng.within(0..=20)),
            _ => near,
        };
        Writer { used, closed: rng.one_in(8) }
    }
}

/// The bytes that a call adds when it is not refused, without the end record.
fn length(call: &Call) -> usize {
    match call {
        Call::Add(item) if item.faults.is_empty() => item.bytes.len(),
        _ => 0,
    }
}

/// Records that make a book of just so many bytes.
pub fn filling(size: usize, rng: &mut Rng) -> Vec<Item> {
    let mut items = vec![];
    let mut rest = size - 15;
    while rest > 0 {
        let length = if rest <= 482 { rest } else { rng.within(15..=482.min(rest - 15)) };
        items.push(Item::of_length(length, rng));
        rest -= length;
    }
    items
}

/// So many bytes and a margin on either side, each unlike its neighbours.
pub fn pattern(room: usize) -> Vec<u8> {
    (0..room + 2 * MARGIN).map(|at| 0xA5 ^ (at as u8).wrapping_mul(37)).collect()
}

/// A right book without padding and fillers, and without the state bits that have no name.
pub fn bare(file: &[u8]) -> Vec<u8> {
    let mut bare = file[..12].to_vec();
    for record in book::records(file).expect("a right book") {
        let at = bare.len();
        bare.extend(&file[record.at..record.note.end]);
        let length = (bare.len() - at - HEAD) as u16;
        bare[at + 1..at + 3].copy_from_slice(&length.to_le_bytes());
        bare[at + 3] &= if bare[at] == 6 { 3 } else { 1 };
    }
    bare.extend([50, 0, 0]);
    bare
}
