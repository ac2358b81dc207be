//! Changes of `three_days` in heads and links.

use super::Change::{Byte, Kind, Next, Previous};
use super::{refused, Row};
use crate::chains::NONE;

pub const HEADS: &[Row] = &[
    (&[Byte(3, 10)], refused(32, 0)),
    (&[Byte(8, 10)], refused(32, 1)),
    (&[Byte(13, 10)], refused(32, 2)),
    (&[Byte(3, 254), Byte(4, 255)], refused(32, 0)),
    // 258 and 65,282: the high byte counts.
    (&[Byte(4, 1)], refused(32, 0)),
    (&[Byte(4, 255)], refused(32, 0)),
    (&[Previous(2, 0)], refused(32, 0)),
    (&[Previous(2, 2)], refused(32, 0)),
    (&[Previous(2, 4)], refused(32, 0)),
    (&[Previous(2, 5)], refused(32, 0)),
    (&[Previous(2, 7)], refused(32, 0)),
    (&[Previous(2, 10)], refused(32, 0)),
    (&[Previous(2, 65_534)], refused(32, 0)),
    (&[Previous(4, 0)], refused(32, 1)),
    (&[Previous(4, 4)], refused(32, 1)),
    (&[Previous(1, 3)], refused(32, 2)),
    (&[Previous(1, 6)], refused(32, 2)),
    // The same head twice and three times.
    (&[Byte(8, 2)], refused(32, 1)),
    (&[Byte(13, 2)], refused(32, 2)),
    (&[Byte(13, 4)], refused(32, 2)),
    (&[Byte(8, 2), Byte(13, 2)], refused(32, 1)),
    (&[Byte(3, 4), Byte(13, 4)], refused(32, 1)),
    // Heads that other records lead to.
    (&[Byte(3, 5)], refused(32, 0)),
    (&[Byte(8, 5)], refused(32, 1)),
    (&[Byte(8, 7)], refused(32, 1)),
    (&[Byte(13, 8)], refused(32, 2)),
    (&[Byte(8, 6)], refused(32, 1)),
    (&[Byte(8, 6), Previous(6, NONE), Next(6, NONE), Kind(6, 0)], Ok(3)),
    (&[Byte(3, 4), Byte(8, 2)], Ok(3)),
];

pub const LINKS: &[Row] = &[
    // Out of range, at each place of a chain.
    (&[Next(2, 10)], refused(32, 2)),
    (&[Next(5, 10)], refused(32, 5)),
    (&[Next(0, 10)], refused(32, 0)),
    (&[Next(7, 10)], refused(32, 7)),
    (&[Next(4, 65_534)], refused(32, 4)),
    (&[Next(1, 4_096)], refused(32, 1)),
    (&[Next(8, 65_534)], refused(32, 8)),
    (&[Next(3, 11)], refused(32, 3)),
    // To itself.
    (&[Next(2, 2)], refused(32, 2)),
    (&[Next(5, 5)], refused(32, 5)),
    (&[Next(7, 7)], refused(32, 7)),
    (&[Next(4, 4)], refused(32, 4)),
    (&[Next(4, 4), Previous(4, 4)], refused(32, 1)),
    (&[Next(7, 7), Previous(7, 7)], refused(32, 0)),
    // To its head, and to the middle.
    (&[Next(5, 2)], refused(32, 5)),
    (&[Next(7, 2)], refused(32, 7)),
    (&[Next(7, 2), Previous(2, 7)], refused(32, 0)),
    (&[Next(3, 1)], refused(32, 3)),
    (&[Next(7, 5)], refused(32, 7)),
    (&[Next(7, 0)], refused(32, 7)),
    (&[Next(7, 5), Previous(5, 7)], refused(32, 2)),
    (&[Next(7, 0), Previous(0, 7)], refused(32, 5)),
    // Two chains into one.
    (&[Next(4, 8)], refused(32, 4)),
    (&[Next(4, 8), Previous(8, 4)], refused(32, 1)),
    (&[Next(7, 3)], refused(32, 7)),
    (&[Next(3, 7)], refused(32, 3)),
    (&[Next(4, 1)], refused(32, 4)),
    (&[Next(4, 1), Previous(1, 4)], refused(32, 2)),
    (&[Next(3, 4)], refused(32, 3)),
    (&[Next(7, 8), Next(4, 8)], refused(32, 7)),
    // Back-links, at each place of a chain.
    (&[Previous(5, NONE)], refused(32, 2)),
    (&[Previous(5, 5)], refused(32, 2)),
    (&[Previous(5, 0)], refused(32, 2)),
    (&[Previous(0, NONE)], refused(32, 5)),
    (&[Previous(0, 2)], refused(32, 5)),
    (&[Previous(7, NONE)], refused(32, 0)),
    (&[Previous(7, 5)], refused(32, 0)),
    (&[Previous(8, 3)], refused(32, 1)),
    (&[Previous(8, 257)], refused(32, 1)),
    (&[Previous(3, 1)], refused(32, 8)),
    (&[Previous(3, 65_534)], refused(32, 8)),
    // Into the circle, and through it.
    (&[Next(7, 6)], refused(32, 7)),
    (&[Next(7, 6), Previous(6, 7)], refused(32, 9)),
    (&[Next(7, 6), Previous(6, 7), Next(9, NONE)], refused(33, 6)),
    (&[Next(7, 6), Previous(6, 7), Next(9, NONE), Kind(6, 2), Kind(9, 2)], Ok(3)),
    // The first in the table's order, then in the chain's.
    (&[Next(3, 10), Next(7, 10)], refused(32, 7)),
    (&[Next(1, 10), Next(4, 4)], refused(32, 4)),
    (&[Next(0, 0), Next(5, 5)], refused(32, 5)),
    (&[Next(0, 0), Next(2, 0)], refused(32, 2)),
    // A chain may end earlier.
    (&[Next(2, NONE)], Ok(3)),
    (&[Next(5, NONE)], Ok(3)),
    (&[Next(1, NONE)], Ok(3)),
];
