//! The picture of the thin gas: its slopes at the start, and the hill once round the row.

use crate::draw_wave::curve;
use crate::svg::{Anchor, Chart, Point, Svg, SMALL, TITLE, WORDS};
use crate::thin::{Run, AIR, COURANT, STEPS, TOP, W};
use crate::whole::{EARLIER, NOW};

const EXACT: &str = "stroke=\"#9a9a9a\" stroke-width=\"4\"";
const WAS: &str = "stroke=\"#c75b12\" stroke-width=\"1.8\" stroke-dasharray=\"7 4\"";
const IS: &str = "stroke=\"#0b5fa5\" stroke-width=\"2.2\" stroke-linejoin=\"round\"";

fn chart(top: f64, y: (f64, f64)) -> Chart {
    Chart {
        corner: (80.0, top),
        size: (780.0, 250.0),
        x: (0.0, W as f64),
        y,
    }
}

/// A value for each cell, as steps.
fn steps(chart: &Chart, values: &[f64]) -> Vec<Point> {
    let ends = values.iter().enumerate();
    chart.places(ends.flat_map(|(i, &value)| [(i as f64, value), (i as f64 + 1.0, value)]))
}

fn axes(svg: &mut Svg, chart: &Chart, up: &[f64], name: &str) {
    let across: Vec<_> = (0..=W)
        .step_by(6)
        .map(|x| (x as f64, x.to_string()))
        .collect();
    let up: Vec<_> = up.iter().map(|&y| (y, format!("{y}"))).collect();
    chart.axes(svg, &across, &up);
    chart.names(svg, "cells, from west to east", name);
}

/// The three lines' names, from a place down.
fn legend(svg: &mut Svg, (x, y): Point, exact: &str) {
    svg.rect((x - 10.0, y - 16.0), 258.0, 78.0, "fill=\"#ffffff\"");
    let names = [
        (EXACT, exact.to_string()),
        (WAS, format!("scale {EARLIER}, up to version 0.5")),
        (IS, format!("scale {NOW}, the proved library")),
    ];
    for (n, (style, name)) in names.iter().enumerate() {
        let line = y + 22.0 * n as f64;
        svg.line(&[(x, line), (x + 30.0, line)], style);
        svg.text((x + 38.0, line + 4.0), Anchor::Start, SMALL, name);
    }
}

/// The picture; `numbers` are the lines under it.
pub fn draw(run: &Run, numbers: &[String]) -> String {
    let title = "A hill of one unit of gas in a thousand units of air";
    let more = format!("{W} cells of {AIR} units of air round a row, {TOP} units of gas at the top; above: the slope in each cell at the start");
    let height = 790 + 19 * numbers.len() as u32;
    let mut svg = Svg::new(900, height, title, &numbers.join(" "));
    svg.text((32.0, 34.0), Anchor::Start, TITLE, title);
    svg.text((32.0, 56.0), Anchor::Start, SMALL, &more);
    let slopes = chart(78.0, (-3.0, 3.0));
    axes(
        &mut svg,
        &slopes,
        &[-3.0, -2.0, -1.0, 0.0, 1.0, 2.0, 3.0],
        "units of gas from end to end",
    );
    let [earlier, now, exact] = &run.slopes;
    for (values, style) in [(exact, EXACT), (earlier, WAS), (now, IS)] {
        svg.line(&steps(&slopes, values), style);
    }
    legend(&mut svg, (592.0, 104.0), "without a scale");
    let below = format!("The hill once round the row, in {STEPS} zonal sweeps of {COURANT} cells");
    svg.text((32.0, 412.0), Anchor::Start, SMALL, &below);
    let hill = chart(434.0, (0.0, f64::from(TOP) + 5.0));
    axes(
        &mut svg,
        &hill,
        &[0.0, 10.0, 20.0, 30.0, 40.0, 50.0, 60.0],
        "units of gas",
    );
    for (row, style) in [(&run.before, EXACT), (&run.earlier, WAS), (&run.after, IS)] {
        svg.line(&curve(&hill, row), style);
    }
    legend(&mut svg, (352.0, 600.0), "start, and exact result");
    svg.lines((32.0, 768.0), WORDS, numbers);
    svg.finish()
}
