//! The three writing calls: runs of them, and single ones with anything in what is handed over.

use super::calls::Fuzz;
use super::look::Look;
use super::numbers;
use crate::answers::{entry_of, settings_of, state_of, writer_answer};
use crate::rng::Rng;
use crate::writer::{self as plain, NewRecord, Writer};
use crate::writings::{Call, Item, Run, Runs};
use apptbook::raw::book::{BookAnswer, RecordAnswer};
use apptbook::raw::writer as proved;
use apptbook::raw::writer::WriterAnswer;

pub fn round(fuzz: &mut Fuzz) {
    let rng = &mut fuzz.rng;
    let run = match rng.below(2) {
        0 => Runs::new(Rng::new(rng.u64())).next().expect("a run"),
        _ => anything(rng),
    };
    let mut state = WriterAnswer::default();
    let mut bytes = fuzz.rng.bytes(run.room);
    for call in run.calls {
        state = match call {
            Call::Take(Writer { used, closed }) => {
                let (number, place) = (fuzz.rng.u64() as u32, fuzz.rng.u64() as usize);
                WriterAnswer { number, place, used, closed }
            }
            call => make(fuzz, call, state, &mut bytes),
        };
    }
}

/// One call by both, from the same buffer, which is then as the reference leaves it.
fn make(fuzz: &mut Fuzz, call: Call, state: WriterAnswer, bytes: &mut Vec<u8>) -> WriterAnswer {
    let Fuzz { rng, tally, seed, buffer, text, note, .. } = fuzz;
    let before = bytes.clone();
    let mut lent = buffer.lend(&before, false, rng);
    let (name, by_proved, by_plain) = match call {
        Call::Open(settings, _) => {
            let by_plain = plain::open(settings_of(settings), bytes);
            let by_plain = writer_answer(by_plain, Writer::default());
            ("open", proved::open(settings, lent.items_mut()), by_plain)
        }
        Call::Close => {
            let by_plain = writer_answer(plain::close(state_of(state), bytes), state_of(state));
            ("close", proved::close(state, lent.items_mut()), by_plain)
        }
        Call::Add(item) => {
            let Item { record, text: text_bytes, note: note_bytes, .. } = *item;
            let new = NewRecord {
                flag: record.flag,
                entry: entry_of(record),
                text: &text_bytes,
                note: &note_bytes,
            };
            let by_plain = writer_answer(plain::add(state_of(state), bytes, new), state_of(state));
            let (text, note) = (text.lend(&text_bytes, true, rng), note.lend(&note_bytes, true, rng));
            let by_proved = proved::add(state, lent.items_mut(), record, text.items(), note.items());
            assert!(text.is(&text_bytes) && note.is(&note_bytes), "seed {seed}: add changed text or note");
            ("add", by_proved, by_plain)
        }
        Call::Take(_) => unreachable!("no call"),
    };
    let mut look = Look { tally, seed: *seed, input: &before };
    look.same(name, by_proved, by_plain);
    if !lent.is(bytes) {
        look.fail(&format!("{name}: another buffer of {} bytes, or bytes beside it changed", bytes.len()));
    }
    by_proved
}

/// Calls in any order, each with anything in it.
fn anything(rng: &mut Rng) -> Run {
    let rooms: &[usize] = match rng.below(8) {
        0 => &[65_534, 65_535, 65_536, 70_000],
        _ => &[0, 1, 11, 12, 14, 15, 16, 40, 100, 600],
    };
    let room = rng.pick(rooms);
    let mut calls = vec![];
    for _ in 0..rng.within(1..=6) {
        calls.push(match rng.below(6) {
            0 => Call::Open(any_settings(rng), false),
            1 => Call::Close,
            2 | 3 => Call::Take(any_state(room, rng)),
            _ => Call::Add(Box::new(any_item(rng))),
        });
    }
    Run { name: "anything", room, calls }
}

fn any_state(room: usize, rng: &mut Rng) -> Writer {
    let used = match rng.below(4) {
        0 => numbers::long(room, rng),
        1 => room.wrapping_sub(rng.within(0..=40)),
        _ => rng.pick(&[0, 11, 12, 13, 20, 65_532, 65_533, 65_535]),
    };
    Writer { used, closed: rng.one_in(6) }
}

fn any_settings(rng: &mut Rng) -> BookAnswer {
    let mut field = |most: usize| match rng.below(6) {
        0 => numbers::short(rng),
        _ => rng.within(0..=most) as u16,
    };
    let (start, granularity, lead) = (field(1_440), field(721), field(31));
    let (number, place, records) = (rng.u64() as u32, rng.u64() as usize, rng.u64() as usize);
    let (alarm, carry_forward) = (rng.one_in(2), rng.one_in(2));
    BookAnswer { number, place, records, start, granularity, lead, alarm, carry_forward }
}

/// A right record with some fields changed, or anything in all of them; any text and note.
fn any_item(rng: &mut Rng) -> Item {
    let mut item = Item::random(rng);
    let often = rng.pick(&[1, 2, 12, 60]);
    let RecordAnswer { number, place, at, text_at, text_length, note_at, note_length, .. } = &mut item.record;
    *number = rng.u64() as u32;
    for field in [place, at, text_at, text_length, note_at, note_length] {
        *field = rng.u64() as usize;
    }
    for field in fields(&mut item.record) {
        if rng.one_in(often) {
            *field = numbers::short(rng);
        }
    }
    if rng.one_in(3) {
        item.text = some_bytes(&[0, 1, 26, 27, 28, 255, 256, 65_536], rng);
    }
    if rng.one_in(3) {
        item.note = some_bytes(&[0, 1, 39, 40, 429, 439, 440, 441, 65_536, 65_976], rng);
    }
    item
}

fn some_bytes(lengths: &[usize], rng: &mut Rng) -> Vec<u8> {
    let most = if rng.one_in(20) { lengths.len() } else { lengths.len() - 2 };
    let (length, zeros) = (rng.pick(&lengths[..most]), rng.pick(&[1, 30, 40, 1_000_000]));
    (0..length).map(|_| if rng.one_in(zeros) { 0 } else { rng.within(1..=255) as u8 }).collect()
}

fn fields(record: &mut RecordAnswer) -> [&mut u16; 18] {
    [
        &mut record.kind,
        &mut record.weekday,
        &mut record.week,
        &mut record.month,
        &mut record.day,
        &mut record.priority,
        &mut record.start,
        &mut record.end,
        &mut record.lead,
        &mut record.first_year,
        &mut record.first_month,
        &mut record.first_day,
        &mut record.last_year,
        &mut record.last_month,
        &mut record.last_day,
        &mut record.check_off_year,
        &mut record.check_off_month,
        &mut record.check_off_day,
    ]
}
