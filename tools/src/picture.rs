//! The picture of the crates as SVG.

use crate::layout::{layout, Layout, BOX};
use crate::listing::Listing;
use crate::tracks::{nets, tracks, Net};
use std::fmt::Write;

const TOP: i32 = 44;
const BELOW: i32 = 40;
const HEIGHT: i32 = 32;
const TRACK: i32 = 9;
const GAP: i32 = 26;
const TINTS: [&str; 2] = ["#f6f6f2", "#eef2f6"];
const COLOURS: [&str; 7] = ["#0072b2", "#d55e00", "#009e73", "#cc79a7", "#8a6d00", "#333333", "#3a9bd9"];
const LEGEND: &str =
    "An arrow goes from a crate to one that it uses; lines join at dots. What a crate also uses \
    through another one is left out.";

/// Upper edges of the rows, and the lines above each.
struct Rows {
    tops: Vec<i32>,
    nets: Vec<Vec<Net>>,
    tracks: Vec<Vec<usize>>,
    bottom: i32,
}

fn rows(layout: &Layout) -> Rows {
    let nets: Vec<Vec<Net>> = (0..layout.rows).map(|row| nets(layout, row)).collect();
    let tracks: Vec<Vec<usize>> = nets.iter().map(|nets| tracks(nets)).collect();
    let mut y = TOP;
    let mut tops = vec![0; layout.rows];
    for row in (0..layout.rows).rev() {
        y += if row + 1 == layout.rows { 10 } else { GAP + TRACK * tracks[row].len() as i32 };
        tops[row] = y;
        y += HEIGHT;
    }
    Rows { tops, nets, tracks, bottom: y + 12 }
}

pub fn picture(listing: &Listing) -> String {
    let layout = layout(listing);
    let rows = rows(&layout);
    let width = layout.columns.last().map_or(0, |column| column.1) + 14;
    let height = rows.bottom + BELOW;
    let mut svg = format!(
        "<svg xmlns=\"http://www.w3.org/2000/svg\" viewBox=\"0 0 {width} {height}\" width=\"{width}\" \
         height=\"{height}\" font-family=\"sans-serif\" font-size=\"14\" fill=\"#222\">\n\
         <title>The crates, and which of them use which</title>\n\
         <rect width=\"{width}\" height=\"{height}\" fill=\"#fff\"/>\n"
    );
    headings(&mut svg, listing, &layout, rows.bottom);
    for row in 0..layout.rows {
        lines(&mut svg, listing, &layout, &rows, row);
    }
    boxes(&mut svg, listing, &layout, &rows);
    put(
        &mut svg,
        format!("<text x=\"14\" y=\"{}\" font-size=\"12\" fill=\"#555\">{LEGEND}</text>", height - 16),
    );
    svg + "</svg>\n"
}

fn put(svg: &mut String, line: String) {
    writeln!(svg, "{line}").expect("a string");
}

fn headings(svg: &mut String, listing: &Listing, layout: &Layout, bottom: i32) {
    for (group, (left, right)) in layout.columns.iter().enumerate() {
        let (width, middle, tint) = (right - left, (left + right) / 2, TINTS[group % 2]);
        put(
            svg,
            format!(
                "<rect x=\"{left}\" y=\"12\" width=\"{width}\" height=\"{}\" rx=\"6\" fill=\"{tint}\"/>",
                bottom - 12
            ),
        );
        let name = &listing.groups[group];
        put(svg, format!("<text x=\"{middle}\" y=\"33\" text-anchor=\"middle\" fill=\"#555\">{name}</text>"));
    }
}

fn colour(listing: &Listing, of: usize) -> &'static str {
    COLOURS[listing.crates[of].group % COLOURS.len()]
}

/// The lines from a row to the one above it.
fn lines(svg: &mut String, listing: &Listing, layout: &Layout, rows: &Rows, row: usize) {
    for (at, net) in rows.nets[row].iter().enumerate() {
        let item = &layout.items[net.item];
        let low = rows.tops[row] + if item.stem { HEIGHT } else { 0 };
        let high = rows.tops[row + 1] + HEIGHT;
        let place = rows.tracks[row].iter().position(|&other| other == at);
        let y = place.map_or(high, |place| rows.tops[row] - GAP / 2 - TRACK * place as i32);
        let mut path = format!("M{} {low}V{y}", net.from);
        for &port in &net.ports {
            write!(path, "M{} {y}H{port}V{high}", net.from).expect("a string");
        }
        let colour = colour(listing, item.of);
        put(svg, format!("<path d=\"{path}\" fill=\"none\" stroke=\"{colour}\" stroke-width=\"1.5\"/>"));
        for x in net.knots() {
            put(svg, format!("<circle cx=\"{x}\" cy=\"{y}\" r=\"3\" fill=\"{colour}\"/>"));
        }
        if !item.stem {
            put(svg, format!("<path d=\"M{} {low}l-4.5 -8h9z\" fill=\"{colour}\"/>", net.from));
        }
    }
}

fn boxes(svg: &mut String, listing: &Listing, layout: &Layout, rows: &Rows) {
    for item in layout.items.iter().filter(|item| !item.stem) {
        let (x, y, colour) = (item.x - BOX / 2, rows.tops[item.row], colour(listing, item.of));
        put(svg, format!("<rect x=\"{x}\" y=\"{y}\" width=\"{BOX}\" height=\"{HEIGHT}\" rx=\"4\" fill=\"#fff\" stroke=\"{colour}\"/>"));
        let (y, name) = (y + HEIGHT / 2 + 5, &listing.crates[item.of].name);
        put(svg, format!("<text x=\"{}\" y=\"{y}\" text-anchor=\"middle\">{name}</text>", item.x));
    }
}
