//! `cargo run --release --bin growth [FILE]` counts what calls of the proved library cost as books, spans of days and
//! day chains grow, prints `docs/measured/growth.md`, and draws `docs/measured/growth.svg` or the file that is named.

mod curves;
mod svg;

use curves::{Curve, CURVES};
use reference::callgrind::{instructions, measured};
use std::path::{Path, PathBuf};
use std::{env, fs};

pub const RECORDS: &[usize] = &[64, 128, 256, 512, 1_024, 2_048, 4_096];
pub const DAYS: &[usize] = &[1, 2, 4, 8, 16, 32, 64, 128, 256, 366];

#[derive(Clone, Copy, PartialEq, Eq)]
pub enum Axis {
    Records,
    Days,
}

impl Axis {
    pub fn sizes(self) -> &'static [usize] {
        match self {
            Axis::Records => RECORDS,
            Axis::Days => DAYS,
        }
    }
}

/// A curve with its costs: sizes, and instructions for each.
pub struct Drawn {
    pub name: &'static str,
    pub axis: Axis,
    pub points: Vec<(f64, f64)>,
}

impl Drawn {
    /// How the logarithm of the cost grows with the logarithm of the size: 0 not at all, 1 in proportion, 2 by the
    /// square. By least squares over the points from the first named one on.
    pub fn slope(&self, from: usize) -> f64 {
        let logs: Vec<(f64, f64)> = self.points[from..].iter().map(|(x, y)| (x.ln(), y.ln())).collect();
        let count = logs.len() as f64;
        let middle = |value: fn(&(f64, f64)) -> f64| logs.iter().map(value).sum::<f64>() / count;
        let (x, y) = (middle(|p| p.0), middle(|p| p.1));
        let over: f64 = logs.iter().map(|p| (p.0 - x) * (p.1 - y)).sum();
        let under: f64 = logs.iter().map(|p| (p.0 - x) * (p.0 - x)).sum();
        over / under
    }
}

fn draw(number: usize, curve: &Curve) -> Drawn {
    let cost = |&size: &usize| {
        let cost = instructions(&[number, size], 1).expect("valgrind, which counts the instructions");
        (size as f64, cost)
    };
    Drawn { name: curve.name, axis: curve.axis, points: curve.axis.sizes().iter().map(cost).collect() }
}

const TITLE: &str = "\
# How costs grow

Written by `cargo run --release --offline --bin growth > ../docs/measured/growth.md`, in `reference/`. What it shows:
`docs/SPEED.md`.

![Instructions of calls against records and against days](growth.svg)
";

fn print_table(drawn: &[Drawn]) {
    println!("{TITLE}");
    println!(
        "| call | against | least | instructions | most | instructions | slope | of the last four points |"
    );
    println!("|---|---|--:|--:|--:|--:|--:|--:|");
    for curve in drawn {
        let against = if curve.axis == Axis::Records { "records" } else { "days" };
        let (first, last) = (curve.points[0], curve.points[curve.points.len() - 1]);
        let ends = [first.0, first.1, last.0, last.1].map(|value| format!("{value:.0}")).join(" | ");
        let slopes = [0, curve.points.len() - 4].map(|from| format!("{:.2}", curve.slope(from))).join(" | ");
        println!("| {} | {against} | {ends} | {slopes} |", curve.name);
    }
}

fn path(word: Option<&String>) -> PathBuf {
    match word {
        Some(word) => word.into(),
        None => Path::new(env!("CARGO_MANIFEST_DIR")).join("../docs/measured/growth.svg"),
    }
}

/// Words: none or a file, to draw; or the numbers of a curve, of a size, and of calls to make.
fn main() {
    let words: Vec<String> = env::args().skip(1).collect();
    let numbers: Vec<usize> = words.iter().flat_map(|word| word.parse()).collect();
    match (&words[..], &numbers[..]) {
        (_, &[curve, size, calls]) => measured(&(CURVES[curve].make)(size), calls),
        ([] | [_], _) => {
            let drawn: Vec<Drawn> = CURVES.iter().enumerate().map(|(at, curve)| draw(at, curve)).collect();
            print_table(&drawn);
            fs::write(path(words.first()), svg::picture(&drawn)).expect("a file to draw into");
        }
        _ => panic!("usage: growth [FILE | CURVE SIZE CALLS]"),
    }
}
