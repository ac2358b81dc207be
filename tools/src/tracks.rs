//! Between two rows each line that goes sideways has a height of its own, so chosen that few lines cross.

use crate::layout::Layout;

/// Up to so many all orders are tried.
const MOST: usize = 7;

/// What goes up from one item to the next row: its stem, and where it goes on.
pub struct Net {
    pub item: usize,
    pub from: i32,
    pub ports: Vec<i32>,
}

impl Net {
    fn ends(&self) -> (i32, i32) {
        let all = || self.ports.iter().copied().chain([self.from]);
        (all().min().unwrap_or(self.from), all().max().unwrap_or(self.from))
    }

    /// Where it branches: three of left, right, down and up.
    pub fn knots(&self) -> Vec<i32> {
        let (left, right) = self.ends();
        let ways = |x: i32| {
            let ups = usize::from(self.ports.contains(&x));
            usize::from(left < x) + usize::from(x < right) + usize::from(x == self.from) + ups
        };
        let mut knots: Vec<i32> =
            self.ports.iter().copied().chain([self.from]).filter(|&x| ways(x) > 2).collect();
        knots.sort();
        knots.dedup();
        knots
    }

    pub fn straight(&self) -> bool {
        self.ends().0 == self.ends().1
    }
}

/// The lines above a row.
pub fn nets(layout: &Layout, row: usize) -> Vec<Net> {
    let net = |(item, at): (usize, &crate::layout::Item)| {
        let ports = layout.links.iter().filter(|link| link.used == item).map(|link| link.port).collect();
        Net { item, from: at.x, ports }
    };
    let here = layout.items.iter().enumerate().filter(|(_, item)| item.row == row);
    here.map(net).filter(|net| !net.ports.is_empty()).collect()
}

/// How often the sideways part of the first is crossed by the other's upright parts; lines that would lie on each
/// other count more.
fn crossed(net: &Net, other: &Net, other_is_higher: bool) -> usize {
    let (left, right) = net.ends();
    let weight = |x: i32| match x {
        x if x == left || x == right => 5,
        x => usize::from(left < x && x < right),
    };
    if other_is_higher {
        weight(other.from)
    } else {
        other.ports.iter().map(|&port| weight(port)).sum()
    }
}

fn crossings(nets: &[&Net], order: &[usize]) -> usize {
    let pair = |a: usize, b: usize| crossed(nets[order[a]], nets[order[b]], b > a);
    let others = |a: usize| (0..order.len()).filter(move |&b| b != a).map(move |b| (a, b));
    (0..order.len()).flat_map(others).map(|(a, b)| pair(a, b)).sum()
}

/// All orders of so many, beginning with the plain one.
fn orders(count: usize) -> Vec<Vec<usize>> {
    let mut all: Vec<Vec<usize>> = vec![vec![]];
    for _ in 0..count {
        let longer = |order: &Vec<usize>| {
            let free = (0..count).filter(|at| !order.contains(at)).collect::<Vec<_>>();
            free.into_iter().map(|at| [&order[..], &[at]].concat()).collect::<Vec<_>>()
        };
        all = all.iter().flat_map(longer).collect();
    }
    all
}

/// The nets that go sideways, by their places, from the lowest up.
pub fn tracks(nets: &[Net]) -> Vec<usize> {
    let bent: Vec<usize> = (0..nets.len()).filter(|&at| !nets[at].straight()).collect();
    if bent.len() > MOST {
        return bent;
    }
    let of: Vec<&Net> = bent.iter().map(|&at| &nets[at]).collect();
    let best = orders(of.len()).into_iter().min_by_key(|order| crossings(&of, order)).unwrap_or_default();
    best.into_iter().map(|at| bent[at]).collect()
}
