//! Where boxes and lines stand: a column for each group, a row for each depth. A crate that is used rows higher up has
//! a stem through the rows between, which all of its users share.

use crate::graph::{reduced, rows};
use crate::listing::Listing;

pub const BOX: i32 = 124;
const STEM: i32 = 10;
const APART: i32 = 14;
const PORTS_APART: i32 = 16;
/// How far from a box's middle lines may come to it.
const PORTS_REACH: i32 = 48;
const SWEEPS: usize = 12;

/// A crate's box, or a piece of its stem.
pub struct Item {
    pub of: usize,
    pub row: usize,
    pub stem: bool,
    /// Its middle.
    pub x: i32,
}

/// A line from the used item to the user's item in the next row, and where it meets that.
pub struct Link {
    pub used: usize,
    pub user: usize,
    pub port: i32,
}

pub struct Layout {
    /// The crates, in the listing's order, and then the stems.
    pub items: Vec<Item>,
    pub links: Vec<Link>,
    /// Left and right edges of the groups.
    pub columns: Vec<(i32, i32)>,
    pub rows: usize,
}

fn half(item: &Item) -> i32 {
    if item.stem {
        STEM / 2
    } else {
        BOX / 2
    }
}

/// All items, and which is linked to which.
fn items(listing: &Listing) -> (Vec<Item>, Vec<Link>) {
    let (rows, needs) = (rows(listing), reduced(listing));
    let item = |of: usize, row, stem| Item { of, row, stem, x: 0 };
    let mut items: Vec<Item> = (0..rows.len()).map(|of| item(of, rows[of], false)).collect();
    let mut links = vec![];
    for used in 0..rows.len() {
        let users: Vec<usize> = (0..rows.len()).filter(|&user| needs[user].contains(&used)).collect();
        let highest = users.iter().map(|&user| rows[user]).max().unwrap_or(0);
        let mut last = used;
        for row in rows[used] + 1..=highest {
            let met = users.iter().filter(|&&user| rows[user] == row);
            links.extend(met.map(|&user| Link { used: last, user, port: 0 }));
            if row < highest {
                items.push(item(used, row, true));
                links.push(Link { used: last, user: items.len() - 1, port: 0 });
                last = items.len() - 1;
            }
        }
    }
    (items, links)
}

/// The items of each group in each row.
fn cells(listing: &Listing, items: &[Item]) -> Vec<Vec<Vec<usize>>> {
    let count = items.iter().map(|item| item.row + 1).max().unwrap_or(0);
    let mut cells = vec![vec![vec![]; count]; listing.groups.len()];
    for (at, item) in items.iter().enumerate() {
        cells[listing.crates[item.of].group][item.row].push(at);
    }
    cells
}

fn columns(cells: &[Vec<Vec<usize>>], items: &[Item]) -> Vec<(i32, i32)> {
    let mut left = APART;
    let mut column = |cells: &Vec<Vec<usize>>| {
        let width = |cell: &Vec<usize>| cell.iter().map(|&at| 2 * half(&items[at]) + APART).sum::<i32>();
        let from = left;
        left += cells.iter().map(width).max().unwrap_or(0).max(BOX + APART) + APART;
        (from, left - APART)
    };
    cells.iter().map(&mut column).collect()
}

/// Orders a cell by where its items want to be, and moves them apart, inside of the column.
fn place(cell: &mut [usize], items: &mut [Item], wants: &[i32], column: (i32, i32)) {
    cell.sort_by_key(|&at| (wants[at], at));
    let mut free = column.0 + APART / 2;
    for &at in cell.iter() {
        items[at].x = wants[at].max(free + half(&items[at]));
        free = items[at].x + half(&items[at]) + APART;
    }
    let mut free = column.1 - APART / 2;
    for &at in cell.iter().rev() {
        items[at].x = items[at].x.min(free - half(&items[at]));
        free = items[at].x - half(&items[at]) - APART;
    }
}

/// The middle of what an item is linked to, in the row below or above; itself where there is nothing.
fn wanted(items: &[Item], links: &[Link], at: usize, upwards: bool) -> i32 {
    let near = |link: &&Link| if upwards { link.user == at } else { link.used == at };
    let far = |link: &Link| items[if upwards { link.used } else { link.user }].x;
    let all: Vec<i32> = links.iter().filter(near).map(far).collect();
    if all.is_empty() {
        items[at].x
    } else {
        all.iter().sum::<i32>() / all.len() as i32
    }
}

/// Lines come to a box side by side: straight up where that can be, in the order of where they come from.
fn set_ports(items: &[Item], links: &mut [Link]) {
    for (at, item) in items.iter().enumerate() {
        let mut met: Vec<usize> = (0..links.len()).filter(|&link| links[link].user == at).collect();
        met.sort_by_key(|&link| (items[links[link].used].x, link));
        let alone = met.len() == 1 && (items[links[met[0]].used].x - item.x).abs() > PORTS_REACH;
        let reach = if item.stem || alone { 0 } else { PORTS_REACH };
        let apart = PORTS_APART.min(2 * reach / (met.len() as i32 - 1).max(1));
        let mut free = item.x - reach;
        for &link in &met {
            links[link].port = items[links[link].used].x.clamp(free, free.max(item.x + reach));
            free = links[link].port + apart;
        }
        let mut free = item.x + reach;
        for &link in met.iter().rev() {
            links[link].port = links[link].port.min(free);
            free = links[link].port - apart;
        }
    }
}

pub fn layout(listing: &Listing) -> Layout {
    let (mut items, mut links) = items(listing);
    let mut cells = cells(listing, &items);
    let columns = columns(&cells, &items);
    for item in &mut items {
        let column = columns[listing.crates[item.of].group];
        item.x = (column.0 + column.1) / 2;
    }
    let count = cells[0].len();
    for sweep in 0..=SWEEPS {
        let upwards = sweep % 2 == 0;
        for step in 0..count {
            let row = if upwards { step } else { count - 1 - step };
            for (group, column) in columns.iter().enumerate() {
                let wants: Vec<i32> =
                    (0..items.len()).map(|at| wanted(&items, &links, at, upwards)).collect();
                place(&mut cells[group][row], &mut items, &wants, *column);
            }
        }
    }
    set_ports(&items, &mut links);
    Layout { items, links, columns, rows: count }
}
