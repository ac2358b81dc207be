//! Changes of `three_days` in the arrays' lengths and in the table.

use super::Change::{Byte, Cut, Longer, More, Shorter};
use super::{refused, Row};

pub const SIZES: &[Row] = &[
    (&[Longer(0)], refused(30, 0)),
    (&[Longer(1)], refused(30, 0)),
    (&[Longer(2)], refused(30, 0)),
    (&[Longer(3)], refused(30, 0)),
    (&[Shorter(0)], refused(30, 0)),
    (&[Shorter(1)], refused(30, 0)),
    (&[Shorter(2)], refused(30, 0)),
    (&[Shorter(3)], refused(30, 0)),
    (&[Longer(0), Longer(1)], refused(30, 0)),
    (&[Longer(0), Longer(1), Longer(2)], refused(30, 0)),
    (&[Longer(0), Shorter(1)], refused(30, 0)),
    (&[Longer(0), Longer(1), Longer(2), Longer(3)], Ok(3)),
    // Record 9 is in no chain.
    (&[Shorter(0), Shorter(1), Shorter(2), Shorter(3)], Ok(3)),
];

/// The entry that is named when the table is cut to so many bytes, from 0 on.
pub const CUTS: [usize; 20] = [0, 0, 0, 0, 0, 0, 1, 1, 1, 1, 1, 2, 2, 2, 2, 2, 3, 3, 3, 3];

pub const TABLES: &[Row] = &[
    // The second date: equal, lower in the third byte, in the second, in the first.
    (&[Byte(7, 16)], refused(31, 1)),
    (&[Byte(7, 15)], refused(31, 1)),
    (&[Byte(7, 0)], refused(31, 1)),
    (&[Byte(6, 1)], refused(31, 1)),
    (&[Byte(6, 1), Byte(7, 255)], refused(31, 1)),
    (&[Byte(5, 92)], refused(31, 1)),
    (&[Byte(5, 92), Byte(6, 255), Byte(7, 255)], refused(31, 1)),
    // The first date too high, by each byte.
    (&[Byte(0, 94)], refused(31, 1)),
    (&[Byte(1, 3)], refused(31, 1)),
    (&[Byte(2, 17)], refused(31, 1)),
    (&[Byte(2, 18)], refused(31, 1)),
    (&[Byte(0, 255)], refused(31, 1)),
    // The third date.
    (&[Byte(11, 2)], refused(31, 2)),
    (&[Byte(11, 2), Byte(12, 17)], refused(31, 2)),
    (&[Byte(11, 2), Byte(12, 18)], Ok(3)),
    (&[Byte(10, 92)], refused(31, 2)),
    (&[Byte(10, 0), Byte(11, 0), Byte(12, 0)], refused(31, 2)),
    (&[Byte(6, 4)], refused(31, 2)),
    // Bytes over 127 are high, and a date need be none that there is.
    (&[Byte(10, 128)], Ok(3)),
    (&[Byte(11, 255)], Ok(3)),
    (&[Byte(6, 2), Byte(7, 255)], Ok(3)),
    (&[Byte(0, 0), Byte(1, 0), Byte(2, 0)], Ok(3)),
    // The last date is not looked at.
    (&[Byte(15, 93), Byte(16, 3), Byte(17, 1)], Ok(3)),
    (&[Byte(15, 255), Byte(16, 255), Byte(17, 255)], Ok(3)),
    // 65,535 too early.
    (&[Byte(3, 255), Byte(4, 255)], refused(31, 0)),
    (&[Byte(8, 255), Byte(9, 255)], refused(31, 1)),
    (&[Byte(13, 255), Byte(14, 255)], refused(31, 2)),
    (&[Byte(3, 255), Byte(4, 255), Byte(13, 255), Byte(14, 255)], refused(31, 0)),
    (&[Byte(3, 255), Byte(4, 255), Cut(7)], refused(31, 0)),
    (&[Byte(3, 255), Byte(4, 255), Cut(10)], refused(31, 0)),
    (&[Byte(13, 255), Byte(14, 255), Cut(16)], refused(31, 2)),
    // And where the cut makes it the last.
    (&[Byte(3, 255), Byte(4, 255), Cut(5)], Ok(0)),
    (&[Byte(8, 255), Byte(9, 255), Cut(10)], Ok(1)),
    (&[Byte(13, 255), Byte(14, 255), Cut(15)], Ok(2)),
    // 65,535 too late or missing.
    (&[Byte(18, 254)], refused(31, 3)),
    (&[Byte(19, 254)], refused(31, 3)),
    (&[Byte(18, 0), Byte(19, 0)], refused(31, 3)),
    (&[More(&[0])], refused(31, 3)),
    (&[More(&[255, 255, 255, 255])], refused(31, 3)),
    (&[More(&[94, 1, 1, 6, 0])], refused(31, 3)),
    (&[More(&[94, 1, 1, 255, 255])], refused(31, 3)),
    (&[Byte(18, 6), Byte(19, 0), More(&[94, 1, 1, 255, 255])], refused(31, 3)),
    (&[Byte(15, 93), Byte(16, 3), Byte(17, 2), Byte(18, 6), Byte(19, 0), More(&[0; 5])], refused(31, 4)),
    // A fault of a date and then one of a record number.
    (&[Byte(7, 16), Byte(13, 255), Byte(14, 255)], refused(31, 1)),
    (&[Byte(8, 255), Byte(9, 255), Byte(11, 2)], refused(31, 1)),
];
