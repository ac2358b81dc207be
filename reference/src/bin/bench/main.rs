//! `cargo run --release --bin bench [-- --markdown]` prints what each call of `include/apptbook.h` costs: the proved
//! library beside the plain reference and, where there is one, another way to the same answer.
//!
//! None of these is inlined; the row "an empty call" is what the loop and a call cost by themselves.
//! Instructions are counted by callgrind, over this program run again for each cell, inside of `measured` only.

mod across;
mod books;
mod calendars;
mod chains;
mod days;
mod exports;
mod pages;
mod reasons;
mod table;
mod writings;

use reference::callgrind::{instructions, measured, Run};
use std::env;
use std::hint::black_box;
use std::time::Instant;
use table::{Line, Style};

const PASSES: usize = 30;

/// By the proved library, by the reference, in another way.
type Runs = [Option<Run>; 3];

struct Row {
    /// As the header has it, without `apptbook_`.
    call: &'static str,
    case: &'static str,
    /// How many are made in a pass.
    calls: usize,
    /// Makes what the calls are handed, which then stays.
    make: Box<dyn Fn() -> Cells>,
}

struct Cells {
    runs: Runs,
    /// What a call goes through: how many of what.
    size: Option<(usize, &'static str)>,
}

fn row(call: &'static str, case: &'static str, calls: usize, make: impl Fn() -> Cells + 'static) -> Row {
    Row { call, case, calls, make: Box::new(make) }
}

const GROUPS: &[fn() -> Vec<Row>] = &[
    days::rows,
    books::rows,
    writings::rows,
    pages::rows,
    reasons::rows,
    calendars::rows,
    exports::rows,
    chains::rows,
    across::rows,
];

fn kept<T>(value: T) -> &'static T {
    Box::leak(Box::new(value))
}

/// The function behind a pointer that the compiler cannot see through.
fn hidden<I, O>(function: fn(I) -> O) -> fn(I) -> O {
    black_box(function)
}

/// The same call again and again.
fn again<I: Copy + 'static, O>(input: I, call: impl Fn(I) -> O + 'static) -> Option<Run> {
    Some(Box::new(move |count| {
        for _ in 0..count {
            black_box(&call(black_box(input)));
        }
    }))
}

/// The quickest of some passes: the others were disturbed.
fn nanoseconds(run: &Run, calls: usize) -> f64 {
    let pass = |_| {
        let start = Instant::now();
        measured(run, calls);
        start.elapsed().as_nanos() as f64 / calls as f64
    };
    (0..PASSES).map(pass).fold(f64::INFINITY, f64::min)
}

fn line(group: usize, number: usize, row: &Row) -> Line {
    let cells = (row.make)();
    let each = |column: usize| {
        let run = cells.runs[column].as_ref()?;
        let counted = instructions(&[group, number, column], row.calls);
        Some((counted, nanoseconds(run, row.calls)))
    };
    let costs = [0, 1, 2].map(each);
    Line {
        call: row.call,
        case: row.case,
        instructions: costs.map(|cost| cost?.0),
        nanoseconds: costs.map(|cost| Some(cost?.1)),
        size: cells.size,
    }
}

fn print_table(style: Style) {
    println!("{}", table::head(style));
    for (group, rows) in GROUPS.iter().enumerate() {
        for (number, row) in rows().iter().enumerate() {
            println!("{}", table::line(style, &line(group, number, row)));
        }
    }
    print!("\n{}", table::legend(style));
}

/// Words: none or `--markdown`, for the table; or the numbers of a group, a row and a column, and of calls to make.
fn main() {
    let words: Vec<String> = env::args().skip(1).collect();
    let numbers: Vec<usize> = words.iter().flat_map(|word| word.parse()).collect();
    match (&words[..], &numbers[..]) {
        ([], _) => print_table(Style::Plain),
        ([word], _) if word == "--markdown" => print_table(Style::Markdown),
        (_, &[group, row, column, calls]) => {
            let cells = (GROUPS[group]()[row].make)();
            measured(cells.runs[column].as_ref().expect("a call that is there"), calls);
        }
        _ => panic!("usage: bench [--markdown | GROUP ROW COLUMN CALLS]"),
    }
}
