//! Judging day chains: none, few and as many records as there may be, in few and in many chains.

use super::{again, hidden, kept, row, Cells, Row};
use apptbook::raw::chains as proved;
use reference::chains::{self as plain, APPOINTMENT, EVENT, MOST_RECORDS, NONE};
use reference::day_chains::{of_one_kind, DayChains, Plan};
use reference::rng::Rng;

const CALLS: usize = 20;

fn one_chain(kind: u16) -> DayChains {
    of_one_kind(kind, &[MOST_RECORDS], &mut Rng::new(1))
}

/// Of all kinds, day after day; all records are reached, and each day has as many as another, or one less.
pub fn several_days(records: usize, days: usize) -> DayChains {
    let lengths: Vec<usize> =
        (0..days).map(|day| records * (day + 1) / days - records * day / days).collect();
    let mut lent = Plan::random(records, &lengths, &mut Rng::new(1)).lent;
    lent.put_dates();
    lent
}

/// A chain whose last record is changed.
fn with_last(change: fn(&mut DayChains, usize)) -> DayChains {
    let mut lent = one_chain(APPOINTMENT);
    let last = lent.next.iter().position(|&next| next == NONE).expect("a last record");
    change(&mut lent, last);
    lent
}

fn checking(case: &'static str, number: u32, make: impl Fn() -> DayChains + 'static) -> Row {
    row("check_chains", case, CALLS, move || {
        let chains: &'static DayChains = kept(make());
        assert_eq!(chains.lent_to(proved::check_chains).number, number);
        let by_proved = again(chains, |chains| chains.lent_to(proved::check_chains));
        let by_plain = again(chains, hidden(|chains: &DayChains| chains.lent_to(plain::check_chains)));
        let records = chains.next.len();
        Cells { runs: [by_proved, by_plain, None], size: (records > 0).then_some((records, "record")) }
    })
}

pub fn rows() -> Vec<Row> {
    vec![
        checking("no record", 0, || several_days(0, 0)),
        checking("1 record", 0, || several_days(1, 1)),
        checking("100 records, 30 days", 0, || several_days(100, 30)),
        checking("300 records, 90 days", 0, || several_days(300, 90)),
        checking("4,096 events, 1 chain", 0, || one_chain(EVENT)),
        checking("4,096 appointments, 1 chain", 0, || one_chain(APPOINTMENT)),
        checking("4,096 records, 366 days", 0, || several_days(MOST_RECORDS, 366)),
        checking("4,096 chains of one", 0, || several_days(MOST_RECORDS, MOST_RECORDS)),
        checking("4,096, the last to the head", 32, || {
            with_last(|lent, last| {
                lent.next[last] = u16::from_le_bytes([lent.table[3], lent.table[4]]);
            })
        }),
        checking("4,096, the last out of order", 33, || with_last(|lent, last| lent.minutes[last] = 0)),
    ]
}
