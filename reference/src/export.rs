//! Document 01, "The Calendar file": the export of a span of days. The book's own refusals, then 11, 13, 12.

use crate::book::{self, Settings};
use crate::calendar::{BLOCK_HEAD, DESCRIPTOR, HEAD, IDENTIFICATION, UNIT};
use crate::days::{day_facts, next_day, LAST_DAY};
use crate::occurrences::soonest;
use crate::pages::{falls, ShortMonth};
use crate::records::{Entry, Record};
use crate::refusal::{Refusal, NO_ROOM, OUT_OF_RANGE, TOO_MANY_BLOCKS};
use std::ops::Range;

pub const LONGEST_SPAN: u16 = 366;
/// The first block offset that has its high bit set.
const TOO_FAR: usize = 32_768;

/// A record that can fall on a day.
struct Item {
    entry: Entry,
    minute: u16,
    alarm: bool,
    text: Range<usize>,
}

impl Item {
    /// Of the appointment made of it: four bytes, the text and a zero.
    fn size(&self) -> usize {
        4 + self.text.len() + 1
    }
}

/// A day with appointments, in the order of its page.
struct Day<'a> {
    day: u16,
    items: Vec<&'a Item>,
    /// Of all appointments.
    size: usize,
}

impl<'a> Day<'a> {
    /// None where there are no appointments.
    fn new(day: u16, items: Vec<&'a Item>) -> Option<Self> {
        let size = items.iter().map(|item| item.size()).sum();
        (!items.is_empty()).then_some(Day { day, items, size })
    }

    fn block_length(&self) -> usize {
        (BLOCK_HEAD + self.size).next_multiple_of(UNIT)
    }
}

/// How the days with appointments are found among `count` days from `first` on.
type Find = for<'a> fn(items: &'a [Item], first: u16, count: u16, choice: ShortMonth) -> Vec<Day<'a>>;

/// Gives the number of bytes written. A refusal changes none; nor do bytes past that number change.
pub fn export(
    file: &[u8],
    first: u16,
    count: u16,
    choice: ShortMonth,
    buffer: &mut [u8],
) -> Result<usize, Refusal> {
    export_by(day_by_day, file, first, count, choice, buffer)
}

/// The same from one occurrence to the next, for the bench.
pub fn export_by_occurrences(
    file: &[u8],
    first: u16,
    count: u16,
    choice: ShortMonth,
    buffer: &mut [u8],
) -> Result<usize, Refusal> {
    export_by(from_one_to_the_next, file, first, count, choice, buffer)
}

fn export_by(
    find: Find,
    file: &[u8],
    first: u16,
    count: u16,
    choice: ShortMonth,
    buffer: &mut [u8],
) -> Result<usize, Refusal> {
    let mut items = Vec::new();
    let settings = book::read(file, |record| items.extend(item(record)))?;
    let in_range = first <= LAST_DAY && count <= LONGEST_SPAN && count <= LAST_DAY + 1 - first;
    if !in_range {
        return Err(OUT_OF_RANGE);
    }
    // The sort is stable, so that what falls on a day is in the order of its page.
    items.sort_by_key(|item| item.minute);
    let days = find(&items, first, count, choice);
    let length = measure(&days)?;
    let lent = buffer.get_mut(..length).ok_or(NO_ROOM)?;
    fill(file, settings, &days, lent);
    Ok(length)
}

/// None of a to-do.
fn item(Record { flag, entry, text, .. }: Record) -> Option<Item> {
    match entry {
        Entry::Dated { times, .. } | Entry::Repeated { times, .. } => {
            Some(Item { entry, minute: times.start, alarm: flag, text })
        }
        Entry::ToDo { .. } => None,
    }
}

fn day_by_day(items: &[Item], first: u16, count: u16, choice: ShortMonth) -> Vec<Day<'_>> {
    let mut days = Vec::new();
    let mut facts = day_facts(first);
    for day in first..first + count {
        let today = facts.expect("a day of the span");
        let falling = items.iter().filter(|item| falls(&item.entry, &today, choice).is_shown());
        days.extend(Day::new(day, falling.collect()));
        facts = next_day(today);
    }
    days
}

fn from_one_to_the_next(items: &[Item], first: u16, count: u16, choice: ShortMonth) -> Vec<Day<'_>> {
    let mut days = vec![vec![]; count.into()];
    for item in items {
        let mut next = soonest(&item.entry, first, choice);
        while let Some(day) = next.filter(|day| day - first < count) {
            days[usize::from(day - first)].push(item);
            next = soonest(&item.entry, day + 1, choice);
        }
    }
    (first..).zip(days).filter_map(|(day, items)| Day::new(day, items)).collect()
}

/// Where the first block begins.
fn blocks_at(days: &[Day]) -> usize {
    (HEAD + DESCRIPTOR * days.len()).next_multiple_of(UNIT)
}

/// The file's length.
fn measure(days: &[Day]) -> Result<usize, Refusal> {
    let mut at = blocks_at(days);
    for day in days {
        if at / UNIT >= TOO_FAR {
            return Err(TOO_MANY_BLOCKS);
        }
        at += day.block_length();
    }
    Ok(at)
}

fn fill(file: &[u8], settings: Settings, days: &[Day], bytes: &mut [u8]) {
    bytes.fill(0);
    let (code, interval) = match settings.granularity {
        15 => (0, 15),
        60 => (2, 60),
        _ => (1, 30),
    };
    bytes[..8].copy_from_slice(&IDENTIFICATION);
    let Settings { start, alarm, lead, .. } = settings;
    put_words(bytes, 8, [days.len() as u16, lead, alarm.into(), code, interval, 1, start]);
    let mut block = blocks_at(days);
    for (number, day) in days.iter().enumerate() {
        let alarms = day.items.iter().filter(|item| item.alarm).count() as u16;
        let descriptor = [day.day, 0, alarms, (block / UNIT) as u16, 0x0FFF, 0x0FFF];
        put_words(bytes, HEAD + DESCRIPTOR * number, descriptor);
        put_words(bytes, block, [0, day.day, 1, 0, day.size as u16]);
        let mut at = block + BLOCK_HEAD;
        for item in &day.items {
            put_appointment(file, item, interval, &mut bytes[at..at + item.size()]);
            at += item.size();
        }
        block += day.block_length();
    }
}

fn put_words<const N: usize>(bytes: &mut [u8], at: usize, words: [u16; N]) {
    for (place, word) in bytes[at..].chunks_exact_mut(2).zip(words) {
        place.copy_from_slice(&word.to_le_bytes());
    }
}

/// The closing zero is there already.
fn put_appointment(file: &[u8], item: &Item, interval: u16, bytes: &mut [u8]) {
    let special = item.minute % interval != 0;
    bytes[0] = bytes.len() as u8;
    bytes[1] = u8::from(item.alarm) + 2 * u8::from(special);
    put_words(bytes, 2, [item.minute]);
    bytes[4..4 + item.text.len()].copy_from_slice(&file[item.text.clone()]);
}
