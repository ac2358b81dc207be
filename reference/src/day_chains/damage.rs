//! Faults of arrays, tables and heads, and the list of all faults, each with the number that it is refused with.

use super::links::{LINKS, ORDER};
use super::plans::Plan;
use crate::chains::{ENTRY, MOST_RECORDS, NONE};
use crate::damages::{self, of};
use crate::rng::Rng;

/// What a fault is about. Of two faults the one counts that stands first here.
#[derive(Clone, Copy, Debug, PartialEq, Eq, PartialOrd, Ord)]
pub enum Part {
    Arrays,
    Table,
    Heads,
    Links,
    Order,
}

pub type Damage = damages::Damage<Part, Apply>;

/// Damages right chains: two days or more, each with two records or more, and a record that is not reached.
pub type Apply = fn(&mut Plan, &mut Rng) -> usize;

/// All there are.
pub fn damages() -> Vec<Damage> {
    [
        of(30, Part::Arrays, ARRAYS),
        of(31, Part::Table, TABLES),
        of(32, Part::Heads, HEADS),
        of(32, Part::Links, LINKS),
        of(33, Part::Order, ORDER),
    ]
    .into_iter()
    .flatten()
    .collect()
}

const ARRAYS: &[(&str, Apply)] = &[
    ("one array longer", |plan, rng| {
        plan.lent.arrays()[rng.within(0..=3)].push(rng.u16());
        0
    }),
    ("one array shorter", |plan, rng| {
        plan.lent.arrays()[rng.within(0..=3)].pop();
        0
    }),
    ("one array empty", |plan, rng| {
        plan.lent.arrays()[rng.within(0..=3)].clear();
        0
    }),
    ("one array as it was, three longer", |plan, rng| {
        let kept = rng.within(0..=3);
        for (number, array) in plan.lent.arrays().into_iter().enumerate() {
            array.resize(array.len() + usize::from(number != kept), NONE);
        }
        0
    }),
    ("4,097 records", |plan, _| resize(plan, MOST_RECORDS + 1)),
    ("over 4,096 records", |plan, rng| resize(plan, rng.within(MOST_RECORDS + 1..=3 * MOST_RECORDS))),
    ("65,536 records more", |plan, _| resize(plan, plan.lent.next.len() + 65_536)),
];

fn resize(plan: &mut Plan, records: usize) -> usize {
    for array in plan.lent.arrays() {
        array.resize(records, NONE);
    }
    0
}

const TABLES: &[(&str, Apply)] = &[
    ("no table", |plan, _| {
        plan.lent.table.clear();
        0
    }),
    ("table cut in an entry", |plan, rng| {
        let entry = rng.within(0..=plan.days.len());
        plan.lent.table.truncate(ENTRY * entry + rng.within(1..=ENTRY - 1));
        entry
    }),
    ("table cut behind an entry", |plan, rng| {
        let entry = any_day(plan, rng);
        plan.lent.table.truncate(ENTRY * (entry + 1));
        entry
    }),
    ("a piece behind the last entry", |plan, rng| {
        let more = rng.within(1..=ENTRY - 1);
        plan.lent.table.extend(rng.bytes(more));
        plan.days.len()
    }),
    ("an entry behind the last", |plan, rng| {
        plan.lent.add_entry([255; 3], rng.pick(&[0, NONE]));
        plan.days.len()
    }),
    ("65,535 before the last entry", |plan, rng| put_record(plan, any_day(plan, rng), NONE)),
    ("a last entry without 65,535", |plan, rng| {
        put_record(plan, plan.days.len(), rng.pick(&[0, 255, 32_767, 65_279, 65_534]))
    }),
    ("the same date twice", |plan, rng| {
        let day = later_day(plan, rng);
        let date = plan.lent.date(day - 1);
        plan.lent.put_date(day, date);
        day
    }),
    ("two dates exchanged", |plan, rng| {
        let day = later_day(plan, rng);
        let dates = [day - 1, day].map(|day| plan.lent.date(day));
        plan.lent.put_date(day - 1, dates[1]);
        plan.lent.put_date(day, dates[0]);
        day
    }),
    ("a date lower in one byte", |plan, rng| {
        let day = later_day(plan, rng);
        let mut date = plan.lent.date(day - 1);
        let at = rng.within(0..=2);
        if date[at] > 0 {
            date[at] -= 1;
            date[at + 1..].fill(255);
        }
        plan.lent.put_date(day, date);
        day
    }),
];

fn any_day(plan: &Plan, rng: &mut Rng) -> usize {
    rng.within(0..=plan.days.len() - 1)
}

fn later_day(plan: &Plan, rng: &mut Rng) -> usize {
    rng.within(1..=plan.days.len() - 1)
}

const HEADS: &[(&str, Apply)] = &[
    ("a head one too high", |plan, rng| {
        put_record(plan, any_day(plan, rng), plan.lent.previous.len() as u16)
    }),
    ("a head of 65,534", |plan, rng| put_record(plan, any_day(plan, rng), 65_534)),
    ("a head out of range", |plan, rng| put_record(plan, any_day(plan, rng), too_high(plan, rng))),
    ("a head with a previous", |plan, rng| {
        let day = any_day(plan, rng);
        let head = plan.days[day][0];
        let others = [0, head, plan.days[day][1], plan.days[0][0], too_high(plan, rng)];
        plan.lent.previous[usize::from(head)] = rng.pick(&others);
        day
    }),
    ("a head in a chain", |plan, rng| {
        let (day, other) = (any_day(plan, rng), any_day(plan, rng));
        let (head, second) = (plan.days[other][0], plan.days[other][1]);
        plan.lent.previous[usize::from(second)] = head;
        put_record(plan, day, second)
    }),
    ("the same head twice", |plan, rng| {
        let day = later_day(plan, rng);
        put_record(plan, day, plan.days[rng.within(0..=day - 1)][0])
    }),
];

/// A number that is no record's, and not 65,535.
pub fn too_high(plan: &Plan, rng: &mut Rng) -> u16 {
    rng.within(plan.lent.next.len()..=65_534) as u16
}

/// Gives the entry.
fn put_record(plan: &mut Plan, entry: usize, record: u16) -> usize {
    plan.lent.put_record(entry, record);
    entry
}
