//! Reading Calendar files: the case of 192 bytes, and files of 2,228,224.

use super::{again, hidden, kept, row, Cells, Row};
use apptbook::raw::calendar as proved;
use reference::calendar as plain;
use reference::calendars::full;
use reference::rng::Rng;
use reference::vectors::calendars::whole_case;

const CALLS: usize = 4;

type File = fn() -> &'static [u8];

/// A file, a descriptor's number, its day, and an appointment's number: the last of each.
type Asked = (&'static [u8], usize, u16, usize);

fn case() -> &'static [u8] {
    kept(whole_case())
}

fn many_days() -> &'static [u8] {
    &kept(full(0, &mut Rng::new(1))).bytes
}

fn long_ones() -> &'static [u8] {
    &kept(full(1, &mut Rng::new(1))).bytes
}

fn short_ones() -> &'static [u8] {
    &kept(full(2, &mut Rng::new(1))).bytes
}

fn asked(file: &'static [u8]) -> Asked {
    let last = plain::read_calendar(file).expect("a right file") - 1;
    let day = plain::calendar_day(file, last).expect("a day").day;
    (file, last, day, plain::calendar_appointments(file, day).expect("a right file") - 1)
}

/// Files are judged to their last list, behind which they may be filled.
fn asking<A: 'static, B: 'static>(
    call: &'static str,
    case: &'static str,
    file: File,
    proved: fn(Asked) -> A,
    plain: fn(Asked) -> B,
) -> Row {
    row(call, case, CALLS, move || {
        let asked = asked(file());
        let runs = [again(asked, proved), again(asked, hidden(plain)), None];
        Cells { runs, size: Some((asked.0.len(), "byte")) }
    })
}

fn reading(case: &'static str, file: File) -> Row {
    asking("read_calendar", case, file, |a| proved::read_calendar(a.0), |a| plain::read_calendar(a.0))
}

fn day(case: &'static str, file: File) -> Row {
    asking("calendar_day", case, file, |a| proved::calendar_day(a.0, a.1), |a| plain::calendar_day(a.0, a.1))
}

fn counting(case: &'static str, file: File) -> Row {
    let by_proved = |a: Asked| proved::calendar_appointments(a.0, a.2);
    asking("calendar_appointments", case, file, by_proved, |a| plain::calendar_appointments(a.0, a.2))
}

fn last(case: &'static str, file: File) -> Row {
    let by_proved = |a: Asked| proved::calendar_appointment(a.0, a.2, a.3);
    asking("calendar_appointment", case, file, by_proved, |a| plain::calendar_appointment(a.0, a.2, a.3))
}

pub fn rows() -> Vec<Row> {
    vec![
        reading("the case, 192 bytes", case),
        reading("full, 27,593 days", many_days),
        reading("full, 8,224 long ones", long_ones),
        reading("full, 419,424 short ones", short_ones),
        day("of the case", case),
        day("last of 27,593", many_days),
        counting("of the case", case),
        counting("last of 27,593 days", many_days),
        counting("13,107 on the last day", short_ones),
        last("of the case", case),
        last("last of 27,593 days", many_days),
        last("last of 8,224 long ones", long_ones),
        last("last of 419,424 short ones", short_ones),
    ]
}
