//! The three writing calls: runs of them, from the same states and buffers.

use super::books::{entry, settings};
use super::{same, same_buffer};
use apptbook::raw::writer::{self as raw, WriterAnswer};
use apptbook::{Record, Writer};
use reference::fuzz::Tally;
use reference::rng::Rng;
use reference::writings::{Call, Item, Runs};

fn state(answer: WriterAnswer) -> Writer {
    Writer { used: answer.used, closed: answer.closed }
}

pub fn round(tally: &mut Tally, rng: &mut Rng) {
    let run = Runs::new(Rng::new(rng.u64())).next().expect("a run");
    let mut buffer = rng.bytes(run.room);
    let mut before = WriterAnswer::default();
    for call in &run.calls {
        before = make(tally, call, before, &mut buffer);
    }
}

/// One call by both; then by the raw one again, in the buffer that stays.
fn make(tally: &mut Tally, call: &Call, before: WriterAnswer, buffer: &mut [u8]) -> WriterAnswer {
    match call {
        Call::Take(writer) => {
            WriterAnswer { used: writer.used, closed: writer.closed, ..WriterAnswer::default() }
        }
        Call::Open(new, _) => {
            let by_safe = |buffer: &mut [u8]| apptbook::open(settings(*new), buffer);
            let by_raw = |buffer: &mut [u8]| raw::open(*new, buffer);
            same_buffer!(tally, "open", buffer.to_vec(), by_safe, by_raw, answer => state(answer));
            by_raw(buffer)
        }
        Call::Close => {
            let by_safe = |buffer: &mut [u8]| apptbook::close(state(before), buffer);
            let by_raw = |buffer: &mut [u8]| raw::close(before, buffer);
            same_buffer!(tally, "close", buffer.to_vec(), by_safe, by_raw, answer => state(answer));
            by_raw(buffer)
        }
        Call::Add(item) => {
            let Item { record, text, note, .. } = &**item;
            let by_raw = |buffer: &mut [u8]| raw::add(before, buffer, *record, text, note);
            // A kind that is none cannot be said to the wrapper.
            if let Some(entry) = entry(*record) {
                let new = Record { at: record.at, flag: record.flag, entry, text, note };
                let by_safe = |buffer: &mut [u8]| apptbook::add(state(before), buffer, new);
                same_buffer!(tally, "add", buffer.to_vec(), by_safe, by_raw, answer => state(answer));
            }
            by_raw(buffer)
        }
    }
}
