//! Changes of `three_days` in kinds and minutes, and several at once.

use super::Change::{Byte, Cut, Kind, Longer, Minute, Next, Previous, Shorter};
use super::{refused, Row};

/// The first day has an event, two appointments and a to-do; the second an appointment; the third two events and a
/// to-do.
pub const ORDER: &[Row] = &[
    // Kinds out of range.
    (&[Kind(2, 3)], refused(33, 2)),
    (&[Kind(5, 3)], refused(33, 5)),
    (&[Kind(0, 65_535)], refused(33, 0)),
    (&[Kind(7, 3)], refused(33, 7)),
    (&[Kind(7, 258)], refused(33, 7)),
    (&[Kind(4, 3)], refused(33, 4)),
    (&[Kind(4, 257)], refused(33, 4)),
    (&[Kind(1, 256)], refused(33, 1)),
    (&[Kind(8, 65_535)], refused(33, 8)),
    (&[Kind(3, 65_535)], refused(33, 3)),
    // Minutes of appointments.
    (&[Minute(5, 1_440)], refused(33, 5)),
    (&[Minute(0, 1_440)], refused(33, 0)),
    (&[Minute(0, 1_439)], Ok(3)),
    (&[Minute(4, 1_440)], refused(33, 4)),
    (&[Minute(4, 65_535)], refused(33, 4)),
    (&[Minute(4, 0)], Ok(3)),
    (&[Kind(3, 1), Minute(3, 1_439)], Ok(3)),
    (&[Kind(3, 1), Minute(3, 1_440)], refused(33, 3)),
    // Minutes of events and to-dos.
    (&[Minute(2, 65_535)], Ok(3)),
    (&[Minute(2, 1_440)], Ok(3)),
    (&[Minute(7, 65_535)], Ok(3)),
    (&[Minute(7, 0)], Ok(3)),
    (&[Kind(4, 0), Minute(4, 65_535)], Ok(3)),
    (&[Kind(4, 2), Minute(4, 65_535)], Ok(3)),
    // An event after an appointment, at each place of the chain where there can be one.
    (&[Kind(0, 0)], refused(33, 0)),
    (&[Kind(7, 0)], refused(33, 7)),
    (&[Kind(2, 1), Kind(5, 0)], refused(33, 5)),
    (&[Kind(1, 1), Minute(1, 0)], refused(33, 8)),
    (&[Kind(8, 1), Minute(8, 0), Kind(3, 0)], refused(33, 3)),
    // An appointment after a to-do.
    (&[Kind(2, 2)], refused(33, 5)),
    (&[Kind(5, 2)], refused(33, 0)),
    (&[Kind(0, 2), Kind(7, 1), Minute(7, 1_439)], refused(33, 7)),
    // An event after a to-do.
    (&[Kind(1, 2)], refused(33, 8)),
    (&[Kind(8, 2), Kind(3, 0)], refused(33, 3)),
    // A minute that falls.
    (&[Minute(0, 599)], refused(33, 0)),
    (&[Minute(5, 601)], refused(33, 0)),
    (&[Minute(0, 601)], Ok(3)),
    (&[Minute(5, 0)], Ok(3)),
    (&[Kind(2, 1), Minute(2, 601)], refused(33, 5)),
    (&[Kind(2, 1), Minute(2, 600)], Ok(3)),
    (&[Kind(7, 1)], refused(33, 7)),
    (&[Kind(7, 1), Minute(7, 599)], refused(33, 7)),
    (&[Kind(7, 1), Minute(7, 600)], Ok(3)),
    (&[Minute(5, 1_439), Minute(0, 0)], refused(33, 0)),
    // No minute is compared with an event's or a to-do's.
    (&[Minute(2, 601)], Ok(3)),
    (&[Kind(5, 0), Minute(5, 1_000)], Ok(3)),
    (&[Kind(0, 2), Minute(0, 599)], Ok(3)),
    (&[Minute(3, 0)], Ok(3)),
    (&[Minute(1, 2), Minute(8, 1)], Ok(3)),
    // The first in the table's order, then in the chain's.
    (&[Kind(7, 3), Kind(5, 3)], refused(33, 5)),
    (&[Kind(3, 3), Kind(4, 3)], refused(33, 4)),
    (&[Kind(1, 3), Kind(0, 3)], refused(33, 0)),
    (&[Minute(4, 1_440), Kind(7, 0)], refused(33, 7)),
    // No day has record 6 or 9.
    (&[Kind(6, 3), Kind(9, 3)], Ok(3)),
    (&[Kind(6, 1), Minute(6, 1_440)], Ok(3)),
    (&[Kind(9, 1), Minute(9, 65_535)], Ok(3)),
    (&[Next(6, 10), Next(9, 65_534), Previous(6, 10), Previous(9, 2)], Ok(3)),
    (&[Next(6, 6), Previous(6, 6), Next(9, 2), Previous(9, 9)], Ok(3)),
    (&[Next(6, 5), Previous(6, 2), Next(9, 4)], Ok(3)),
    // A chain of two ends before the others, whose kinds then do not count.
    (&[Next(5, 65_535), Kind(0, 3), Kind(7, 3)], Ok(3)),
];

/// By rank: arrays, table, heads, links, order. Each pair, also with the second of them in an earlier entry or chain.
pub const SEVERAL: &[Row] = &[
    (&[Longer(2), Cut(0)], refused(30, 0)),
    (&[Shorter(3), Byte(7, 16)], refused(30, 0)),
    (&[Longer(0), Previous(2, 0)], refused(30, 0)),
    (&[Longer(1), Next(2, 2)], refused(30, 0)),
    (&[Shorter(2), Kind(2, 3)], refused(30, 0)),
    (&[Byte(11, 2), Previous(2, 0)], refused(31, 2)),
    (&[Byte(18, 0), Byte(3, 10)], refused(31, 3)),
    (&[Byte(18, 0), Next(2, 2)], refused(31, 3)),
    (&[Byte(7, 16), Next(3, 10)], refused(31, 1)),
    (&[Cut(19), Kind(2, 3)], refused(31, 3)),
    (&[Byte(7, 16), Minute(4, 1_440)], refused(31, 1)),
    (&[Previous(1, 0), Next(2, 2)], refused(32, 2)),
    (&[Byte(13, 2), Next(7, 10)], refused(32, 2)),
    (&[Previous(2, 0), Next(3, 10)], refused(32, 0)),
    (&[Byte(13, 10), Kind(2, 3)], refused(32, 2)),
    (&[Byte(8, 2), Minute(0, 599)], refused(32, 1)),
    (&[Next(3, 10), Kind(2, 3)], refused(32, 3)),
    (&[Next(7, 7), Kind(2, 3)], refused(32, 7)),
    (&[Previous(3, 1), Minute(0, 599)], refused(32, 8)),
    (&[Next(2, 2), Kind(3, 3)], refused(32, 2)),
    (&[Shorter(1), Byte(18, 0), Byte(3, 10), Next(4, 4), Kind(2, 3)], refused(30, 0)),
    (&[Byte(18, 0), Byte(3, 10), Next(4, 4), Kind(2, 3)], refused(31, 3)),
    (&[Byte(13, 10), Next(4, 4), Kind(2, 3)], refused(32, 2)),
    (&[Next(4, 4), Kind(2, 3)], refused(32, 4)),
];
