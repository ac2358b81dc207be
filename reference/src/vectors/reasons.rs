//! Records and days written out by hand, with the reason why a record is on a day, or isn't (document 02, R-8).

use super::single::{asked, dated, from, monthly, position, to, to_do, weekly, yearly, Asked, ALL};
use crate::reasons::Reason;

// The same under skip and under last.
const OWN: [Reason; 2] = [Reason::OwnDay; 2];
const TO_DO: [Reason; 2] = [Reason::IsToDo; 2];
const BEFORE: [Reason; 2] = [Reason::BeforeStart; 2];
const AFTER: [Reason; 2] = [Reason::AfterEnd; 2];
const MONTH: [Reason; 2] = [Reason::WrongMonth; 2];
const DAY: [Reason; 2] = [Reason::WrongDay; 2];
const WEEKDAY: [Reason; 2] = [Reason::WrongWeekday; 2];
const WEEK: [Reason; 2] = [Reason::WrongWeek; 2];

/// Where a month does not have the wanted day.
const SHORT: [Reason; 2] = [Reason::MonthTooShort, Reason::Moved];

const APRIL_29: [u8; 3] = [93, 4, 29];
const APRIL_30: [u8; 3] = [93, 4, 30];
const MAY_1: [u8; 3] = [93, 5, 1];

type Group = Vec<Vec<Asked<Reason>>>;

/// Dated records and to-dos.
fn without_rules() -> Group {
    vec![
        asked(dated(APRIL_30), [(0, BEFORE), (4_867, BEFORE), (4_868, OWN), (4_869, AFTER), (43_829, AFTER)]),
        asked(dated([94, 4, 30]), [(4_868, BEFORE), (5_232, BEFORE), (5_233, OWN), (5_234, AFTER)]),
        asked(dated(ALL[0]), [(0, OWN), (1, AFTER), (43_829, AFTER)]),
        asked(dated(ALL[1]), [(0, BEFORE), (43_828, BEFORE), (43_829, OWN)]),
        asked(to_do(APRIL_30), [(0, TO_DO), (4_867, TO_DO), (4_868, TO_DO), (4_869, TO_DO), (43_829, TO_DO)]),
    ]
}

/// 30 April 1993, day 4,868, is a Friday (6), and the fifth one. 29 March 1993, day 4,836, is the fifth Monday (2); 26
/// April, day 4,864, is a month's last Monday and the fourth.
fn weekdays() -> Group {
    vec![
        asked(weekly(6, ALL), [(4_861, OWN), (4_867, WEEKDAY), (4_868, OWN), (4_869, WEEKDAY), (4_875, OWN)]),
        asked(weekly(3, ALL), [(0, OWN), (1, WEEKDAY), (7, OWN), (43_829, WEEKDAY)]),
        asked(weekly(5, ALL), [(0, WEEKDAY), (43_822, OWN), (43_828, WEEKDAY), (43_829, OWN)]),
        asked(position(5, 6, ALL), [(4_861, WEEK), (4_867, WEEKDAY), (4_868, OWN), (4_875, WEEK)]),
        asked(position(5, 2, ALL), [(4_829, WEEK), (4_836, OWN), (4_837, WEEKDAY), (4_843, WEEK)]),
        asked(position(5, 2, ALL), [(4_864, WEEK), (4_868, WEEKDAY), (4_899, OWN)]),
        asked(position(4, 2, ALL), [(4_829, OWN), (4_836, WEEK), (4_837, WEEKDAY), (4_864, OWN)]),
        asked(position(1, 3, ALL), [(0, OWN), (1, WEEKDAY), (7, WEEK), (42_427, WEEK)]),
        asked(position(5, 5, ALL), [(30, OWN), (43_822, WEEK), (43_828, WEEKDAY), (43_829, OWN)]),
    ]
}

/// April has 30 days; February of 1980, 1992, 2000 and 2096 has 29, that of 1981, 1993 and 2097 to 2099 has 28.
fn days_of_the_month() -> Group {
    vec![
        asked(monthly(1, ALL), [(0, OWN), (1, DAY), (4_807, DAY), (4_868, DAY), (4_869, OWN)]),
        asked(monthly(28, ALL), [(4_441, OWN), (4_442, DAY), (4_807, OWN), (4_868, DAY)]),
        asked(monthly(29, ALL), [(58, DAY), (59, OWN), (424, SHORT), (4_441, DAY), (4_442, OWN)]),
        asked(monthly(29, ALL), [(4_806, DAY), (4_807, SHORT), (4_808, DAY), (4_867, OWN), (4_868, DAY)]),
        asked(monthly(29, ALL), [(7_363, DAY), (7_364, OWN), (42_427, DAY), (42_428, OWN), (42_793, SHORT)]),
        asked(monthly(30, ALL), [(59, SHORT), (4_441, DAY), (4_442, SHORT), (4_806, DAY), (4_807, SHORT)]),
        asked(monthly(30, ALL), [(4_837, OWN), (4_838, DAY), (4_867, DAY), (4_868, OWN), (7_364, SHORT)]),
        asked(monthly(31, ALL), [(30, OWN), (59, SHORT), (4_442, SHORT), (4_807, SHORT), (4_837, DAY)]),
        asked(monthly(31, ALL), [(4_838, OWN), (4_867, DAY), (4_868, SHORT), (4_869, DAY), (4_899, OWN)]),
        asked(monthly(31, ALL), [(4_929, SHORT), (5_021, SHORT), (5_082, SHORT), (5_113, OWN)]),
        asked(monthly(31, ALL), [(43_523, SHORT), (43_798, SHORT), (43_828, DAY), (43_829, OWN)]),
    ]
}

/// A month that lacks the day but is the wrong one, too, is the wrong one.
fn months() -> Group {
    vec![
        asked(yearly(2, 29, ALL), [(0, MONTH), (58, DAY), (59, OWN), (424, SHORT), (43_829, MONTH)]),
        asked(yearly(2, 29, ALL), [(4_441, DAY), (4_442, OWN), (4_806, DAY), (4_807, SHORT), (4_808, MONTH)]),
        asked(
            yearly(2, 29, ALL),
            [(4_838, MONTH), (4_867, MONTH), (4_868, MONTH), (7_363, DAY), (7_364, OWN)],
        ),
        asked(yearly(2, 29, ALL), [(7_365, MONTH), (42_427, DAY), (42_428, OWN), (42_793, SHORT)]),
        asked(yearly(2, 29, ALL), [(43_158, SHORT), (43_522, DAY), (43_523, SHORT), (43_524, MONTH)]),
        asked(yearly(2, 28, ALL), [(4_441, OWN), (4_442, DAY), (4_807, OWN), (4_808, MONTH)]),
        asked(yearly(3, 31, ALL), [(4_807, MONTH), (4_837, DAY), (4_838, OWN), (4_868, MONTH), (5_203, OWN)]),
        asked(yearly(4, 30, ALL), [(4_807, MONTH), (4_838, MONTH), (4_867, DAY), (4_868, OWN), (5_233, OWN)]),
        asked(yearly(1, 1, ALL), [(0, OWN), (1, DAY), (43_829, MONTH)]),
        asked(yearly(12, 31, ALL), [(0, MONTH), (43_798, MONTH), (43_828, DAY), (43_829, OWN)]),
    ]
}

/// Days before the first date and behind the last one, whatever else holds of them.
fn spans() -> Group {
    const LAST_BUT_ONE: [u8; 3] = [199, 12, 30];
    vec![
        asked(weekly(6, from(MAY_1)), [(4_867, BEFORE), (4_868, BEFORE), (4_869, WEEKDAY), (4_875, OWN)]),
        asked(weekly(6, to(APRIL_29)), [(4_861, OWN), (4_867, WEEKDAY), (4_868, AFTER), (4_869, AFTER)]),
        asked(
            position(5, 6, from(MAY_1)),
            [(4_861, BEFORE), (4_867, BEFORE), (4_868, BEFORE), (4_896, WEEK)],
        ),
        asked(position(5, 6, to(APRIL_29)), [(4_861, WEEK), (4_868, AFTER), (4_869, AFTER), (4_875, AFTER)]),
        asked(monthly(31, from(APRIL_30)), [(4_838, BEFORE), (4_867, BEFORE), (4_868, SHORT), (4_869, DAY)]),
        asked(monthly(31, from(MAY_1)), [(4_807, BEFORE), (4_868, BEFORE), (4_869, DAY), (4_899, OWN)]),
        asked(monthly(31, to(APRIL_29)), [(4_838, OWN), (4_867, DAY), (4_868, AFTER), (4_869, AFTER)]),
        asked(monthly(31, to(APRIL_30)), [(4_867, DAY), (4_868, SHORT), (4_869, AFTER), (4_899, AFTER)]),
        asked(
            yearly(3, 31, from(MAY_1)),
            [(4_807, BEFORE), (4_838, BEFORE), (4_868, BEFORE), (4_869, MONTH)],
        ),
        asked(yearly(3, 31, to(APRIL_29)), [(4_838, OWN), (4_867, MONTH), (4_868, AFTER), (5_203, AFTER)]),
        asked(yearly(2, 29, from([93, 3, 1])), [(4_442, BEFORE), (4_807, BEFORE), (4_808, MONTH)]),
        asked(yearly(2, 29, to([93, 2, 27])), [(4_442, OWN), (4_806, DAY), (4_807, AFTER), (7_364, AFTER)]),
        asked(weekly(5, [APRIL_30; 2]), [(4_867, BEFORE), (4_868, WEEKDAY), (4_869, AFTER)]),
        asked(monthly(30, [APRIL_30; 2]), [(4_867, BEFORE), (4_868, OWN), (4_869, AFTER)]),
        asked(monthly(31, [APRIL_30; 2]), [(4_867, BEFORE), (4_868, SHORT), (4_869, AFTER)]),
        asked(weekly(5, to(LAST_BUT_ONE)), [(43_822, OWN), (43_828, WEEKDAY), (43_829, AFTER)]),
        asked(weekly(3, from([80, 1, 2])), [(0, BEFORE), (1, WEEKDAY), (7, OWN)]),
        asked(monthly(31, [ALL[1]; 2]), [(0, BEFORE), (43_798, BEFORE), (43_828, BEFORE), (43_829, OWN)]),
    ]
}

pub fn all() -> Vec<Asked<Reason>> {
    let groups = [without_rules(), weekdays(), days_of_the_month(), months(), spans()];
    groups.into_iter().flatten().flatten().collect()
}
