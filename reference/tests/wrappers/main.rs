//! The safe wrappers of the crate `apptbook` against the raw calls behind them, over hostile inputs: the same values,
//! the same refusals, the same buffers, and texts that are the caller's own bytes.

mod books;
mod calendars;
mod days;
mod writing;

use apptbook::raw;
use reference::fuzz::chains::any_chains;
use reference::fuzz::{files, Tally};
use reference::header;
use reference::rng::Rng;

/// Compares a wrapper's result with the raw answer: its number and place, or a value made from its other fields.
macro_rules! same {
    ($tally:expr, $call:literal, $result:expr, $raw:expr, $answer:ident => $value:expr) => {{
        let $answer = $raw;
        $tally.add($call, $answer.number);
        let expected = match $answer.number {
            0 => Ok($value),
            number => Err(apptbook::Refusal { number, place: $answer.place }),
        };
        assert_eq!($result, expected, $call);
    }};
}
use same;

/// Calls a wrapper and the raw call with buffers that are the same, and compares these afterwards, too.
macro_rules! same_buffer {
    ($tally:expr, $call:literal, $before:expr, $safe:expr, $raw:expr, $answer:ident => $value:expr) => {{
        let (mut by_safe, mut by_raw): (Vec<u8>, Vec<u8>) = ($before.clone(), $before);
        let result = $safe(&mut by_safe);
        same!($tally, $call, result, $raw(&mut by_raw), $answer => $value);
        assert!(by_safe == by_raw, "{}: another buffer", $call);
    }};
}
use same_buffer;

fn chains(tally: &mut Tally, rng: &mut Rng) {
    let lent = any_chains(rng);
    let by_raw = lent.lent_to(raw::chains::check_chains);
    same!(tally, "check_chains", lent.lent_to(apptbook::check_chains), by_raw, answer => answer.count);
}

#[test]
fn wrappers_and_raw_calls() {
    let mut rng = Rng::for_test("wrappers_and_raw_calls");
    let mut tally = Tally::default();
    for _ in 0..8_000 {
        days::round(&mut tally, &mut rng);
        books::round(&mut tally, &files::book(&mut rng), &mut rng);
        calendars::round(&mut tally, &files::calendar(&mut rng), &mut rng);
        writing::round(&mut tally, &mut rng);
        chains(&mut tally, &mut rng);
    }
    println!("{tally}");
    for (call, numbers) in &tally.counts {
        let refused: u64 = numbers.iter().filter(|(&number, _)| number != 0).map(|(_, count)| count).sum();
        let never = ["is_real_date", "default_last"].contains(call);
        assert!(numbers[&0] >= 50 && (refused >= 50 || never), "{call}: {numbers:?}");
    }
    let compared: Vec<&str> = tally.counts.into_keys().collect();
    assert_eq!(header::calls(), compared, "calls of the header and those compared here");
}
