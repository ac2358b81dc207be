//! Faults of links, and of the order within a day.

use super::damage::{too_high, Apply};
use super::plans::Plan;
use crate::chains::{APPOINTMENT, EVENT, NONE, TO_DO};
use crate::rng::Rng;

pub const LINKS: &[(&str, Apply)] = &[
    ("a next one too high", |plan, rng| put_next(plan, any(plan, rng), plan.lent.next.len() as u16)),
    ("a next of 65,534", |plan, rng| put_next(plan, any(plan, rng), 65_534)),
    ("a next out of range", |plan, rng| put_next(plan, any(plan, rng), too_high(plan, rng))),
    ("a next to itself", |plan, rng| {
        let record = any(plan, rng);
        put_next(plan, record, record)
    }),
    ("a next to the head", |plan, rng| {
        let day = rng.pick(&days(plan));
        put_next(plan, rng.pick(day), day[0])
    }),
    ("a last record's next back into its chain", |plan, rng| {
        let day = rng.pick(&days(plan));
        put_next(plan, day[day.len() - 1], rng.pick(day))
    }),
    ("a last record's next into another chain", |plan, rng| {
        let (day, other) = two_days(plan, rng);
        put_next(plan, day[day.len() - 1], rng.pick(other))
    }),
    ("a next into another chain", |plan, rng| {
        let (day, other) = two_days(plan, rng);
        put_next(plan, rng.pick(day), rng.pick(other))
    }),
    ("a next to a record that names another back", |plan, rng| {
        let (record, unreached, too_high) = (any(plan, rng), unreached(plan), too_high(plan, rng));
        plan.lent.previous[usize::from(unreached)] = rng.pick(&[unreached, NONE, too_high]);
        put_next(plan, record, unreached)
    }),
    ("a previous that is another", |plan, rng| {
        let day = rng.pick(&days(plan));
        let at = rng.within(1..=day.len() - 1);
        let (before, record) = (day[at - 1], day[at]);
        let others = [NONE, record, day[day.len() - 1], unreached(plan), too_high(plan, rng)];
        plan.lent.previous[usize::from(record)] = rng.pick(&others);
        before.into()
    }),
];

fn days(plan: &Plan) -> Vec<&[u16]> {
    plan.days.iter().map(|day| &day[..]).collect()
}

/// Two different ones, in any order.
fn two_days<'a>(plan: &'a Plan, rng: &mut Rng) -> (&'a [u16], &'a [u16]) {
    let mut days = days(plan);
    rng.shuffle(&mut days);
    (days[0], days[1])
}

/// Any record that is reached.
fn any(plan: &Plan, rng: &mut Rng) -> u16 {
    let day = rng.pick(&days(plan));
    rng.pick(day)
}

fn unreached(plan: &Plan) -> u16 {
    let reached = |record: &u16| plan.days.iter().any(|day| day.contains(record));
    (0..).find(|record| !reached(record)).expect("a record that is not reached")
}

fn put_next(plan: &mut Plan, record: u16, next: u16) -> usize {
    plan.lent.next[usize::from(record)] = next;
    record.into()
}

pub const ORDER: &[(&str, Apply)] = &[
    ("kind 3", |plan, rng| put_kind(plan, any(plan, rng), 3)),
    ("a kind over 2", |plan, rng| put_kind(plan, any(plan, rng), rng.within(3..=65_535) as u16)),
    ("a kind over 255", |plan, rng| put_kind(plan, any(plan, rng), rng.pick(&[256, 257, 258, 65_535]))),
    ("minute 1,440", |plan, rng| behind(plan, 0, APPOINTMENT, (APPOINTMENT, 1_440), rng)),
    ("a minute over 1,439", |plan, rng| {
        behind(plan, 0, APPOINTMENT, (APPOINTMENT, rng.within(1_440..=65_535) as u16), rng)
    }),
    ("an event after an appointment", |plan, rng| behind(plan, 1, APPOINTMENT, (EVENT, rng.u16()), rng)),
    ("an event after a to-do", |plan, rng| behind(plan, 1, TO_DO, (EVENT, rng.u16()), rng)),
    ("an appointment after a to-do", |plan, rng| behind(plan, 1, TO_DO, (APPOINTMENT, 1_439), rng)),
    ("one minute below the one before", |plan, rng| behind(plan, 1, APPOINTMENT, (APPOINTMENT, 599), rng)),
    ("a minute below the one before", |plan, rng| {
        behind(plan, 1, APPOINTMENT, (APPOINTMENT, rng.below(600) as u16), rng)
    }),
];

fn put_kind(plan: &mut Plan, record: u16, kind: u16) -> usize {
    plan.lent.kinds[usize::from(record)] = kind;
    record.into()
}

/// Puts a kind and a minute behind so many records of another kind or more, all at 10:00, and gives the record.
fn behind(plan: &mut Plan, least: usize, kind: u16, put: (u16, u16), rng: &mut Rng) -> usize {
    let day = rng.pick(&days(plan)).to_vec();
    let at = rng.within(least..=day.len() - 1);
    for &record in &day[..at] {
        let record = put_kind(plan, record, kind);
        plan.lent.minutes[record] = 600;
    }
    let record = put_kind(plan, day[at], put.0);
    plan.lent.minutes[record] = put.1;
    record
}
