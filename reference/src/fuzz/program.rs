//! The program as a process: hostile command lines and hostile books, against the plain program.

use super::{files, numbers, Tally};
use crate::process::{command, fed};
use crate::program::output;
use crate::rng::Rng;
use std::path::Path;
use std::process::Output;

/// Runs it once.
pub fn round(program: &Path, seed: u64, tally: &mut Tally) {
    let mut rng = Rng::new(seed);
    let words = words(&mut rng);
    let input = if rng.one_in(12) { files::calendar(&mut rng) } else { files::book(&mut rng) };
    tally.bytes += input.len() as u64;
    let pieces = if rng.one_in(4) { rng.within(1..=input.len().max(1)) } else { usize::MAX };
    let Output { status, stdout, stderr } = fed(&mut command(program, &words), input.chunks(pieces));
    let expected = output(&words, &input);
    let (kind, number) = kind(&expected);
    tally.add(kind, number);
    let right = status.success() && stderr.is_empty() && stdout == expected;
    assert!(
        right,
        "{status}, {} bytes, not {}; standard error {:?}; again: fuzz 0 {seed} program",
        stdout.len(),
        expected.len(),
        String::from_utf8_lossy(&stderr)
    );
}

/// What the answer is: a page, a Calendar file or a refusal.
fn kind(output: &[u8]) -> (&'static str, u32) {
    let words: Vec<&[u8]> = output.split(|byte| *byte == b' ' || *byte == b'\n').collect();
    match words[..] {
        _ if output.starts_with(&crate::calendar::IDENTIFICATION) => ("program: export", 0),
        [number, _, b""] => {
            let number = std::str::from_utf8(number).ok().and_then(|word| word.parse().ok());
            ("program: refusal", number.expect("a number"))
        }
        _ => ("program: page", 0),
    }
}

fn words(rng: &mut Rng) -> Vec<Vec<u8>> {
    let mut words = match rng.below(20) {
        0 => vec![],
        1 => vec![hostile(rng); rng.pick(&[3, 4, 100, 5_000])],
        2 => (0..rng.within(1..=5)).map(|_| hostile(rng)).collect(),
        3..9 => vec![number(numbers::day(rng), rng), number(numbers::short(rng), rng)],
        9..12 => vec![number(numbers::day(rng), rng), number(rng.within(0..=366) as u16, rng)],
        _ => vec![number(numbers::day(rng), rng)],
    };
    // Without the word all is refused.
    if !rng.one_in(6) {
        words.push(rng.pick(&["skip", "last"]).into());
    }
    // All words together may not be longer than the system hands over.
    let mut left = 1_500_000;
    words.retain(|word| {
        left -= (word.len() + 9) as i64;
        left > 0
    });
    if rng.one_in(10) && !words.is_empty() {
        let at = rng.within(0..=words.len() - 1);
        words[at] = hostile(rng);
    }
    words
}

/// Most often as it is; else with zeros before it, or much more than it.
fn number(number: u16, rng: &mut Rng) -> Vec<u8> {
    let number = match rng.below(12) {
        0 => u64::from(number) + (1 << rng.pick(&[16, 32, 48])),
        _ => number.into(),
    };
    let zeros = if rng.one_in(8) { rng.pick(&[1, 5, 60, 4_096, 131_000]) } else { 0 };
    [vec![b'0'; zeros], number.to_string().into_bytes()].concat()
}

/// Of any bytes but 0, which no word can hold.
fn hostile(rng: &mut Rng) -> Vec<u8> {
    let length = rng.pick(&[0, 0, 1, 2, 4, 20, 300, 131_071]);
    let bytes: &[u8] =
        rng.pick(&[b"0", b"9", b"x", b"0123456789", b"skiplast", b"\x80\xFF\xC3\x28", b"-+ .,\n\x01"]);
    (0..length).map(|_| rng.pick(bytes)).collect()
}
