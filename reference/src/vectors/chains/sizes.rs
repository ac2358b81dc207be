//! Day chains of none, few and many records, made by rules that are simple enough to tell the answer by hand.

use super::{refused, Answer};
use crate::chains::{APPOINTMENT, EVENT, NONE};
use crate::day_chains::DayChains;

/// Records of a kind, at 10:00, and a day for each of these chains, of which each is named by its records in order.
fn chained(records: usize, kind: u16, chains: &[Vec<u16>]) -> DayChains {
    let mut lent = DayChains::unlinked(records, kind, 600);
    for chain in chains {
        lent.add_entry([0; 3], chain[0]);
        lent.link(chain);
    }
    lent.add_entry([0; 3], NONE);
    lent.put_dates();
    lent
}

fn up(records: usize) -> Vec<u16> {
    (0..records as u16).collect()
}

fn down(records: usize) -> Vec<u16> {
    (0..records as u16).rev().collect()
}

/// Each alone, the last one first.
fn alone(records: usize) -> Vec<Vec<u16>> {
    down(records).into_iter().map(|record| vec![record]).collect()
}

type Row = (String, DayChains, Answer);

fn row(name: &str, lent: DayChains, answer: Answer) -> Row {
    (name.to_string(), lent, answer)
}

pub fn of_many_records() -> Vec<Row> {
    let edges = [1, 2, 255, 256, 257, 2_048, 2_049, 4_095, 4_096].into_iter().flat_map(of_edge);
    [of_few(), of_4_096(), of_4_097(), of_two_bytes()].into_iter().flatten().chain(edges).collect()
}

fn of_few() -> Vec<Row> {
    let heads = |records, heads: &[u16]| {
        let chains: Vec<Vec<u16>> = heads.iter().map(|&head| vec![head]).collect();
        let mut lent = chained(3, EVENT, &chains);
        for array in lent.arrays() {
            array.truncate(records);
        }
        lent
    };
    vec![
        row("nothing at all", DayChains::default(), refused(31, 0)),
        row("no record, no day", heads(0, &[]), Ok(0)),
        row("no record, a day", heads(0, &[0]), refused(32, 0)),
        row("one record, no day", heads(1, &[]), Ok(0)),
        row("one record, one day", heads(1, &[0]), Ok(1)),
        row("one record, two days", heads(1, &[0, 0]), refused(32, 1)),
        row("three records, three days", heads(3, &[1, 2, 0]), Ok(3)),
        row("three records, four days", heads(3, &[1, 2, 0, 1]), refused(32, 3)),
        row("three records, six days", heads(3, &[0, 1, 2, 2, 1, 0]), refused(32, 3)),
        row("two records, record 2 after others", heads(2, &[1, 0, 2]), refused(32, 2)),
    ]
}

/// All in one chain, each alone, and one record less than the table and a chain ask for.
fn of_edge(records: usize) -> Vec<Row> {
    let last = records - 1;
    let chain = [up(records)];
    let missing = |mut lent: DayChains| {
        for array in lent.arrays() {
            array.pop();
        }
        lent
    };
    let next_missing = if last == 0 { refused(32, 0) } else { refused(32, last - 1) };
    let name = |words: &str| format!("{records} records, {words}");
    vec![
        (name("one chain"), chained(records, EVENT, &chain), Ok(1)),
        (name("one chain, downward"), chained(records, APPOINTMENT, &[down(records)]), Ok(1)),
        (name("each alone"), chained(records, APPOINTMENT, &alone(records)), Ok(records)),
        (name("the last one missing"), missing(chained(records, EVENT, &chain)), next_missing),
        (name("the first head missing"), missing(chained(records, EVENT, &alone(records))), refused(32, 0)),
    ]
}

fn of_4_096() -> Vec<Row> {
    let upward = || chained(4_096, APPOINTMENT, &[up(4_096)]);
    let changed = |change: fn(&mut DayChains)| {
        let mut lent = upward();
        change(&mut lent);
        lent
    };
    let mut unreached = chained(4_096, 3, &[]);
    unreached.previous.fill(4_096);
    unreached.next = up(4_096);
    let mut again = chained(4_096, EVENT, &alone(4_096));
    again.put_record(4_095, 1);
    vec![
        row("4,096 to the head", changed(|lent| lent.next[4_095] = 0), refused(32, 4_095)),
        row("4,096 to themselves", changed(|lent| lent.next[4_095] = 4_095), refused(32, 4_095)),
        row("4,096 to the middle", changed(|lent| lent.next[4_095] = 2_048), refused(32, 4_095)),
        row("4,096 in a circle", changed(|l| (l.next[4_095], l.previous[0]) = (0, 4_095)), refused(32, 0)),
        row("the last but one's next", changed(|lent| lent.next[4_094] = 4_096), refused(32, 4_094)),
        row("the last one's previous", changed(|lent| lent.previous[4_095] = 4_093), refused(32, 4_094)),
        row("the last one's kind", changed(|lent| lent.kinds[4_095] = 0), refused(33, 4_095)),
        row("the last one's minute", changed(|lent| lent.minutes[4_095] = 599), refused(33, 4_095)),
        row("none of 4,096 reached", unreached, Ok(0)),
        row("each alone, the last head again", again, refused(32, 4_095)),
    ]
}

fn of_4_097() -> Vec<Row> {
    let longer = |array: usize| {
        let mut lent = chained(4_096, EVENT, &[up(4_096)]);
        lent.arrays()[array].push(NONE);
        lent
    };
    let mut rows: Vec<Row> =
        (0..4).map(|array| (format!("4,097 in array {array}"), longer(array), refused(30, 0))).collect();
    rows.push(row("4,097 records", chained(4_097, EVENT, &[up(4_096)]), refused(30, 0)));
    rows.push(row("4,097 records in a chain", chained(4_097, EVENT, &[up(4_097)]), refused(30, 0)));
    rows.push(row(
        "65,536 records",
        DayChains { table: vec![], ..chained(65_536, EVENT, &[]) },
        refused(30, 0),
    ));
    rows.push(row("65,537 records", chained(65_537, EVENT, &[vec![0]]), refused(30, 0)));
    rows
}

/// Record 258 is told by the bytes 2 and 1, record 513 by 1 and 2.
fn of_two_bytes() -> Vec<Row> {
    let with = |bytes: [u8; 2]| {
        let mut lent = chained(520, EVENT, &[vec![258]]);
        lent.table[3..5].copy_from_slice(&bytes);
        lent.previous[513] = 0;
        lent
    };
    vec![
        row("record 258", with([2, 1]), Ok(1)),
        row("record 513, which has a previous", with([1, 2]), refused(32, 0)),
        row("record 255", with([255, 0]), Ok(1)),
        row("record 65,280", with([0, 255]), refused(32, 0)),
        row("record 519", with([7, 2]), Ok(1)),
        row("record 520", with([8, 2]), refused(32, 0)),
    ]
}
