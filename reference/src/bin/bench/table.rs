//! The table as it is printed: plain, or as the Markdown of `docs/measured/bench.md`.

#[derive(Clone, Copy, PartialEq, Eq)]
pub enum Style {
    Plain,
    Markdown,
}

pub struct Line {
    pub call: &'static str,
    pub case: &'static str,
    /// Per call: proved, reference, other way.
    pub instructions: [Option<f64>; 3],
    pub nanoseconds: [Option<f64>; 3],
    pub size: Option<(usize, &'static str)>,
}

const TITLE: &str = "\
# What each call costs

Written by `cargo run --release --offline --bin bench -- --markdown > ../docs/measured/bench.md`, in `reference/`. What
it shows, and of which commit it is: `docs/SPEED.md`.
";

pub fn head(style: Style) -> String {
    let columns = ["proved", "reference", "other way", "ratio"];
    match style {
        Style::Plain => {
            let groups = format!("{:<50}{:^48}  {:^48}", "", "instructions per call", "nanoseconds per call");
            let columns = columns.map(|column| format!("{column:>12}")).concat();
            format!("{groups}\n{:<22}{:<28}{columns}  {columns}   proved, per", "call", "case")
        }
        Style::Markdown => {
            let of = |unit: &str| {
                columns.map(|column| format!(" {column}, {unit} |")).concat().replace("ratio, ", "ratio of ")
            };
            format!(
                "{TITLE}\n| call | case |{}{} instructions, proved, per |\n|---|---|{}",
                of("instructions"),
                of("ns"),
                "--:|".repeat(9)
            )
        }
    }
}

pub fn line(style: Style, line: &Line) -> String {
    let costs = [line.instructions, line.nanoseconds].map(|costs| {
        let ratio = costs[0].zip(costs[1]).map(|(proved, plain)| proved / plain);
        [number(costs[0], 1), number(costs[1], 1), number(costs[2], 1), number(ratio, 2)]
    });
    let each = per_unit(line);
    match style {
        Style::Plain => {
            let costs = costs.map(|cells| cells.map(|cell| format!("{cell:>12}")).concat()).join("  ");
            format!("{:<22}{:<28}{costs}   {each}", line.call, line.case)
        }
        Style::Markdown => {
            let costs = costs.concat().join(" | ");
            format!("| `{}` | {} | {costs} | {each} |", line.call, line.case)
        }
    }
}

/// With a comma after each three digits; a hyphen where there is none.
fn number(value: Option<f64>, digits: usize) -> String {
    let Some(value) = value else { return "-".into() };
    let digits = if value >= 10_000.0 { 0 } else { digits };
    let text = format!("{value:.digits$}");
    let (whole, part) = text.split_at(text.find('.').unwrap_or(text.len()));
    let mut grouped = String::new();
    for (at, digit) in whole.chars().enumerate() {
        if at > 0 && (whole.len() - at) % 3 == 0 {
            grouped.push(',');
        }
        grouped.push(digit);
    }
    grouped + part
}

fn per_unit(line: &Line) -> String {
    match line.instructions[0].zip(line.size) {
        Some((cost, (count, unit))) => format!("{} per {unit}", number(Some(cost / count as f64), 1)),
        None => String::new(),
    }
}

/// Lines of at most 118 columns, so that they fit behind a mark.
const LEGEND: [&str; 5] = [
    "proved: the library. reference: the plain second implementation, in Rust, by the release build; in the rows \"both by\n\
     halving\" its search in the table of month starts, by eleven halvings; in the rows \"both across C\" behind the same C\n\
     interface, and there the other way is the reference called from Rust in the same loop.",
    "other way: a further way to the same answer, where there is one in this folder: closed formulas for days and dates,\n\
     and for searches and exports jumps from one occurrence to the next. It is no limit.",
    "ratio: proved / reference; the goal is at or below 1. A hyphen: there is no such call, or no valgrind to count it.",
    "instructions are counted by callgrind; nanoseconds are the quickest of 30 passes.",
    "per: instructions of the proved call by what it goes through: bytes of the file, its records or those of day chains,\n\
     days looked at, bytes written.",
];

pub fn legend(style: Style) -> String {
    match style {
        Style::Plain => LEGEND.map(|item| format!("{item}\n")).concat(),
        Style::Markdown => LEGEND.map(|item| format!("- {}\n", item.replace('\n', "\n  "))).concat(),
    }
}
