//! The picture: two log-log diagrams side by side, costs against records and against days.

use super::{Axis, Drawn};
use std::fmt::Write;

const WIDTH: f64 = 1_280.0;
const HEIGHT: f64 = 560.0;
const TOP: f64 = 64.0;
const BOTTOM: f64 = 490.0;
/// Left and right edges of the two.
const PANELS: [(Axis, f64, f64); 2] = [(Axis::Records, 80.0, 420.0), (Axis::Days, 730.0, 1_070.0)];
const COLOURS: [&str; 7] = ["#0072b2", "#e69f00", "#009e73", "#d55e00", "#cc79a7", "#333333", "#56b4e9"];
const LABELS_APART: f64 = 19.0;

/// Maps a range to places by its logarithm.
struct Scale {
    from: f64,
    to: f64,
    at: f64,
    until: f64,
}

impl Scale {
    fn place(&self, value: f64) -> f64 {
        let part = (value.ln() - self.from.ln()) / (self.to.ln() - self.from.ln());
        self.at + part * (self.until - self.at)
    }
}

/// Whole powers of ten around all costs.
fn costs(drawn: &[Drawn]) -> Scale {
    let all = || drawn.iter().flat_map(|curve| &curve.points).map(|point| point.1.log10());
    let (least, most) = (all().fold(f64::INFINITY, f64::min), all().fold(0.0, f64::max));
    Scale { from: 10f64.powf(least.floor()), to: 10f64.powf(most.ceil()), at: BOTTOM, until: TOP }
}

pub fn picture(drawn: &[Drawn]) -> String {
    let mut svg = format!(
        "<svg xmlns=\"http://www.w3.org/2000/svg\" viewBox=\"0 0 {WIDTH} {HEIGHT}\" width=\"{WIDTH}\" height=\"{HEIGHT}\" \
         font-family=\"sans-serif\" font-size=\"14\" fill=\"#222\">\n\
         <title>What calls of the proved library cost as books, spans and day chains grow</title>\n\
         <rect width=\"{WIDTH}\" height=\"{HEIGHT}\" fill=\"#fff\"/>\n"
    );
    let costs = costs(drawn);
    for (axis, left, right) in PANELS {
        let sizes = axis.sizes();
        let across =
            Scale { from: sizes[0] as f64, to: sizes[sizes.len() - 1] as f64, at: left, until: right };
        grid(&mut svg, axis, &across, &costs);
        let curves: Vec<&Drawn> = drawn.iter().filter(|curve| curve.axis == axis).collect();
        lines(&mut svg, &curves, &across, &costs);
        labels(&mut svg, &curves, &across, &costs);
    }
    svg + "</svg>\n"
}

fn text(svg: &mut String, x: f64, y: f64, more: &str, words: &str) {
    writeln!(svg, "<text x=\"{x:.1}\" y=\"{y:.1}\" {more}>{words}</text>").expect("a string");
}

fn line(svg: &mut String, from: (f64, f64), to: (f64, f64), more: &str) {
    let ((x1, y1), (x2, y2)) = (from, to);
    writeln!(svg, "<line x1=\"{x1:.1}\" y1=\"{y1:.1}\" x2=\"{x2:.1}\" y2=\"{y2:.1}\" {more}/>")
        .expect("a string");
}

fn grid(svg: &mut String, axis: Axis, across: &Scale, costs: &Scale) {
    let (title, below) = match axis {
        Axis::Records => ("against records, of the book or in day chains", "records, doubling"),
        Axis::Days => ("against days, in a book of 1,024 records or of 1", "days, doubling"),
    };
    let middle = (across.at + across.until) / 2.0;
    let faint = "stroke=\"#ddd\"";
    let mut power = costs.from;
    while power <= costs.to * 1.001 {
        let y = costs.place(power);
        line(svg, (across.at, y), (across.until, y), faint);
        let exponent = power.log10().round();
        let label = format!("10<tspan dy=\"-6\" font-size=\"10\">{exponent}</tspan>");
        text(svg, across.at - 8.0, y + 5.0, "text-anchor=\"end\"", &label);
        power *= 10.0;
    }
    for &size in axis.sizes() {
        let x = across.place(size as f64);
        line(svg, (x, TOP), (x, BOTTOM), faint);
        // 256 and 366 stand too near for two labels.
        if size != 256 || axis == Axis::Records {
            text(svg, x, BOTTOM + 20.0, "text-anchor=\"middle\" font-size=\"12\"", &size.to_string());
        }
    }
    line(svg, (across.at, BOTTOM), (across.until, BOTTOM), "stroke=\"#222\"");
    line(svg, (across.at, TOP), (across.at, BOTTOM), "stroke=\"#222\"");
    text(svg, across.at, TOP - 28.0, "font-weight=\"bold\"", &format!("Instructions {title}"));
    text(svg, middle, BOTTOM + 44.0, "text-anchor=\"middle\"", below);
    let turned = format!("text-anchor=\"middle\" transform=\"rotate(-90 {0:.1} 277)\"", across.at - 52.0);
    text(svg, across.at - 52.0, 277.0, &turned, "instructions per call");
    text(svg, across.until + 30.0, TOP - 8.0, "font-size=\"12\" fill=\"#666\"", "call, and slope at its end");
}

fn lines(svg: &mut String, curves: &[&Drawn], across: &Scale, costs: &Scale) {
    for (curve, colour) in curves.iter().zip(COLOURS) {
        let places: Vec<(f64, f64)> =
            curve.points.iter().map(|point| (across.place(point.0), costs.place(point.1))).collect();
        let path: Vec<String> = places.iter().map(|(x, y)| format!("{x:.1},{y:.1}")).collect();
        let path = path.join(" ");
        writeln!(svg, "<polyline points=\"{path}\" fill=\"none\" stroke=\"{colour}\" stroke-width=\"2\"/>")
            .expect("a string");
        for (x, y) in places {
            writeln!(svg, "<circle cx=\"{x:.1}\" cy=\"{y:.1}\" r=\"3\" fill=\"{colour}\"/>")
                .expect("a string");
        }
    }
}

/// At the lines' ends, moved apart where they would cover each other.
fn labels(svg: &mut String, curves: &[&Drawn], across: &Scale, costs: &Scale) {
    let end = |curve: &Drawn| costs.place(curve.points[curve.points.len() - 1].1);
    let mut order: Vec<(f64, &Drawn, &str)> =
        curves.iter().zip(COLOURS).map(|(curve, colour)| (end(curve), *curve, colour)).collect();
    order.sort_by(|a, b| a.0.total_cmp(&b.0));
    let mut free = TOP;
    for (y, curve, colour) in order {
        let at = y.max(free);
        free = at + LABELS_APART;
        let more = format!("stroke=\"{colour}\" stroke-width=\"0.7\"");
        line(svg, (across.until + 5.0, y), (across.until + 26.0, at), &more);
        let words = format!("{}, {:.2}", curve.name, curve.slope(curve.points.len() - 4));
        text(svg, across.until + 30.0, at + 5.0, &format!("fill=\"{colour}\""), &words);
    }
}
