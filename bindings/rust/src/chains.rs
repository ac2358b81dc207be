//! The check of HP 200LX day chains.

use crate::{raw, Refusal};

/// The number of days in a Single Occurrence Table whose chains are right: no two share a record, and each ends.
///
/// The table is lent as it is in the file; the four slices have an element for each record: its previous and its next
/// record in the day's chain (65,535 for none), its kind (0 event, 1 appointment, 2 to-do) and its start minute.
///
/// Refused, in this order, with the number of an entry or a record as the place: 30 for slices not equally long or over
/// 4,096, 31 for an entry of the table, 32 for a head or a link, 33 for a record's kind, minute or order.
pub fn check_chains(
    table: &[u8],
    previous: &[u16],
    next: &[u16],
    kinds: &[u16],
    minutes: &[u16],
) -> Result<usize, Refusal> {
    raw::chains::check_chains(table, previous, next, kinds, minutes).counted()
}
