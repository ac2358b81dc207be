//! Every call of `include/apptbook.h` with hostile arguments, against the reference.

use super::look::Look;
use super::memory::{crashes_show, Pages};
use super::{chains, dates, files, numbers, writing, Tally};
use crate::answers::IntoAnswer;
use crate::pages::{Falls, ShortMonth, CHOICES};
use crate::rng::Rng;
use crate::{book, calendar, export, pages, printed, reasons};
use apptbook::raw;
use apptbook::raw::pages::CountAnswer;
use apptbook::raw::reasons::ReasonAnswer;

/// A run of rounds.
pub struct Fuzz {
    pub tally: Tally,
    pub seed: u64,
    pub rng: Rng,
    pub file: Pages,
    pub buffer: Pages,
    pub text: Pages,
    pub note: Pages,
    /// For the four arrays of day chains.
    pub arrays: [Pages; 4],
    /// Room for any export.
    most: Vec<u8>,
}

impl Fuzz {
    pub fn new() -> Self {
        let [file, buffer, text, note] = [0; 4].map(|_| Pages::new());
        let arrays = [0; 4].map(|_| Pages::new());
        let most = vec![0; calendar::LONGEST];
        Fuzz { tally: Tally::default(), seed: 0, rng: Rng::new(0), file, buffer, text, note, arrays, most }
    }

    /// One of each call at least.
    pub fn round(&mut self, seed: u64) {
        (self.seed, self.rng) = (seed, Rng::new(seed));
        crashes_show(seed);
        let Fuzz { rng, tally, .. } = self;
        dates::round(&mut Look { tally, seed, input: &[] }, rng);
        let (book, calendar) = (files::book(&mut self.rng), files::calendar(&mut self.rng));
        let swapped = self.rng.one_in(8);
        self.with_book(if swapped { &calendar } else { &book });
        self.with_calendar(if swapped { &book } else { &calendar });
        writing::round(self);
        chains::round(self);
    }

    fn with_book(&mut self, bytes: &[u8]) {
        let Fuzz { rng, tally, seed, file, buffer, most, .. } = self;
        tally.bytes += bytes.len() as u64;
        let lent = file.lend(bytes, true, rng);
        let mut look = Look { tally, seed: *seed, input: bytes };
        reading(&mut look, lent.items(), rng);
        showing(&mut look, lent.items(), rng);
        printing(&mut look, lent.items(), buffer, rng);
        exporting(&mut look, lent.items(), buffer, most, rng);
        assert!(lent.is(bytes), "seed {seed}: a call changed the book");
    }

    fn with_calendar(&mut self, bytes: &[u8]) {
        let Fuzz { rng, tally, seed, file, .. } = self;
        tally.bytes += bytes.len() as u64;
        let lent = file.lend(bytes, true, rng);
        let mut look = Look { tally, seed: *seed, input: bytes };
        opening(&mut look, lent.items(), rng);
        assert!(lent.is(bytes), "seed {seed}: a call changed the Calendar file");
    }
}

impl Default for Fuzz {
    fn default() -> Self {
        Fuzz::new()
    }
}

fn reading(look: &mut Look, file: &[u8], rng: &mut Rng) {
    let plain = book::read_book(file);
    look.at("read_book", raw::book::read_book(file), plain);
    let record = numbers::long(plain.map_or(3, |book| book.records), rng);
    look.at("record", raw::book::record(file, record), book::record(file, record));
    let lines = book::note_lines(file, record);
    look.at("note_lines", raw::book::note_lines(file, record), lines);
    let line = numbers::long(lines.unwrap_or(3), rng);
    look.at("note_line", raw::book::note_line(file, record, line), book::note_line(file, record, line));
}

/// Any day, or one on which a record falls, where there is one.
fn likely_day(file: &[u8], choice: ShortMonth, rng: &mut Rng) -> u16 {
    let day = numbers::day(rng);
    if rng.one_in(2) {
        return day;
    }
    let record = rng.below(4) as usize;
    let search = pages::next_occurrence(file, record, day, choice);
    search.ok().and_then(|search| search.day).unwrap_or(day)
}

fn showing(look: &mut Look, file: &[u8], rng: &mut Rng) {
    look.same("default_last", raw::pages::default_last(), pages::DEFAULT == ShortMonth::Last);
    let choice = numbers::choice(rng);
    let day = likely_day(file, choice, rng);
    let lines = pages::page_lines(file, day, choice);
    look.at("page_lines", raw::pages::page_lines(file, day, choice), lines);
    let page = pages::page(file, day, choice).unwrap_or_default();
    // Where there is a moved line, most often that one and its record.
    let moved = page.iter().position(|line| line.moved).filter(|_| !rng.one_in(4));
    let line = moved.unwrap_or_else(|| numbers::long(lines.unwrap_or(3), rng));
    let plain = pages::page_line(file, day, choice, line);
    look.tally.moved[1] += u64::from(plain.as_ref().is_ok_and(|line| line.moved));
    look.at("page_line", raw::pages::page_line(file, day, choice, line), plain);
    let records = book::read_book(file).map_or(3, |book| book.records);
    let record = moved.map_or_else(|| numbers::long(records, rng), |line| page[line].record);
    let falls = pages::falls_on(file, record, day, choice);
    look.tally.moved[0] += u64::from(falls == Ok(Falls::Moved));
    look.at("falls_on", raw::pages::falls_on(file, record, day, choice), falls);
    let next = pages::next_occurrence(file, record, day, choice);
    look.at("next_occurrence", raw::pages::next_occurrence(file, record, day, choice), next);
    explaining(look, file, [record, rng.below(4) as usize], day);
}

fn explaining(look: &mut Look, file: &[u8], records: [usize; 2], day: u16) {
    for (record, choice) in records.into_iter().flat_map(|record| CHOICES.map(|choice| (record, choice))) {
        let plain: ReasonAnswer = reasons::why(file, record, day, choice).answer();
        look.tally.reasons[usize::from(plain.reason)] += 1;
        look.same("why", raw::reasons::why(file, record, day, choice), plain);
    }
}

fn opening(look: &mut Look, file: &[u8], rng: &mut Rng) {
    let days = calendar::read_calendar(file);
    look.at("read_calendar", raw::calendar::read_calendar(file), days);
    let descriptor = numbers::long(days.unwrap_or(3), rng);
    let plain = calendar::calendar_day(file, descriptor);
    look.at("calendar_day", raw::calendar::calendar_day(file, descriptor), plain);
    let day = plain.map_or_else(|_| numbers::day(rng), |descriptor| descriptor.day);
    let count = calendar::calendar_appointments(file, day);
    look.at("calendar_appointments", raw::calendar::calendar_appointments(file, day), count);
    let number = numbers::long(count.unwrap_or(3), rng);
    let plain = calendar::calendar_appointment(file, day, number);
    look.at("calendar_appointment", raw::calendar::calendar_appointment(file, day, number), plain);
}

/// Near to what is needed, or any length.
fn room(needed: usize, rng: &mut Rng) -> usize {
    match rng.below(8) {
        0 => rng.within(0..=needed),
        1 => needed.saturating_sub(1),
        2 => 0,
        3 => rng.within(0..=400),
        4 => needed + rng.within(1..=1_000),
        _ => needed,
    }
}

type Write<'a> = &'a dyn Fn(&mut [u8]) -> CountAnswer;

/// Answer and buffer of a call that writes to it.
fn written(
    look: &mut Look,
    call: &'static str,
    buffer: &mut Pages,
    before: &[u8],
    by: [Write; 2],
    rng: &mut Rng,
) {
    let mut expected = before.to_vec();
    let plain = by[1](&mut expected);
    let mut lent = buffer.lend(before, false, rng);
    let proved = by[0](lent.items_mut());
    look.same(call, proved, plain);
    if !lent.is(&expected) {
        look.fail(&format!("{call}: another buffer of {} bytes, or bytes beside it changed", before.len()));
    }
}

fn printing(look: &mut Look, file: &[u8], buffer: &mut Pages, rng: &mut Rng) {
    let choice = numbers::choice(rng);
    let day = likely_day(file, choice, rng);
    let length = printed::page_length(file, day, choice);
    look.at("page_length", raw::pages::page_length(file, day, choice), length);
    let room = room(length.unwrap_or(40), rng);
    let before = rng.bytes(room);
    let proved: Write = &|buffer| raw::pages::print_page(file, day, choice, buffer);
    let plain: Write = &|buffer| printed::print_page(file, day, choice, buffer).answer();
    written(look, "print_page", buffer, &before, [proved, plain], rng);
}

fn exporting(look: &mut Look, file: &[u8], buffer: &mut Pages, most: &mut [u8], rng: &mut Rng) {
    let (first, choice) = (numbers::day(rng), numbers::choice(rng));
    let count = if rng.one_in(4) { numbers::short(rng) } else { rng.within(0..=366) as u16 };
    let needed = export::export(file, first, count, choice, most);
    let room = room(needed.unwrap_or(64), rng);
    let before = vec![rng.u8(); room];
    let proved: Write = &|buffer| raw::export::export(file, first, count, choice, buffer);
    let plain: Write = &|buffer| export::export(file, first, count, choice, buffer).answer();
    written(look, "export", buffer, &before, [proved, plain], rng);
}
