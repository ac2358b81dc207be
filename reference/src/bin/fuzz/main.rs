//! `cargo run --release --bin fuzz -- SECONDS [SEED [calls|program]]` feeds hostile inputs to every call of the proved
//! library and to the proved program, half of the time each, compares all answers with the reference, and prints how
//! many there were of each number. A difference ends it, with the seed that shows it again.
//!
//! `... -- files FOLDER COUNT [SEED]` writes hostile files, for other hosts: books, Calendar files, packed day chains.

use reference::day_chains::packed;
use reference::fuzz::calls::Fuzz;
use reference::fuzz::{chains, files, program, Tally};
use reference::process::apptbook;
use reference::rng::Rng;
use std::path::Path;
use std::time::{Duration, Instant};
use std::{env, fs};

const USAGE: &str = "usage: fuzz SECONDS [SEED [calls|program]], or fuzz files FOLDER COUNT [SEED]";

fn number(word: Option<&String>, otherwise: u64) -> u64 {
    word.map_or(otherwise, |word| word.parse().expect(USAGE))
}

/// One round at least; gives their number.
fn rounds(seed: u64, time: Duration, mut round: impl FnMut(u64)) -> u64 {
    let start = Instant::now();
    let mut count = 0;
    loop {
        round(seed.wrapping_add(count));
        count += 1;
        if start.elapsed() >= time {
            return count;
        }
    }
}

fn print(what: &str, seed: u64, rounds: u64, tally: &Tally) {
    println!("{what}: {rounds} rounds from seed {seed}, {} bytes of files\n{tally}", tally.bytes);
}

fn calls(seed: u64, time: Duration) {
    let mut fuzz = Fuzz::new();
    let count = rounds(seed, time, |seed| fuzz.round(seed));
    print("calls", seed, count, &fuzz.tally);
}

fn runs(seed: u64, time: Duration) {
    let path = apptbook();
    let mut tally = Tally::default();
    let count = rounds(seed, time, |seed| program::round(&path, seed, &mut tally));
    print("program", seed, count, &tally);
}

fn write_files(folder: &str, count: u64, seed: u64) {
    fs::create_dir_all(folder).expect("a folder");
    for number in 0..count {
        let mut rng = Rng::new(seed.wrapping_add(number));
        let file = match number % 3 {
            0 => files::book(&mut rng),
            1 => files::calendar(&mut rng),
            _ => packed(&chains::any_chains(&mut rng)),
        };
        fs::write(Path::new(folder).join(format!("{number:06}")), file).expect("a file");
    }
}

fn main() {
    let words: Vec<String> = env::args().skip(1).collect();
    if let [word, folder, count, ..] = &words[..] {
        if word == "files" {
            return write_files(folder, number(Some(count), 0), number(words.get(3), 1));
        }
    }
    let time = Duration::from_secs(number(words.first().or_else(|| panic!("{USAGE}")), 0));
    let seed = number(words.get(1), 1);
    match words.get(2).map(String::as_str) {
        None => {
            calls(seed, time / 2);
            runs(seed, time / 2);
        }
        Some("calls") => calls(seed, time),
        Some("program") => runs(seed, time),
        _ => panic!("{USAGE}"),
    }
    println!("no difference");
}
