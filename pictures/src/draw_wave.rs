//! The picture of the wave.

use crate::plain;
use crate::svg::{Anchor, Chart, Point, Svg, SMALL, TITLE, WORDS};
use crate::wave::{Run, COURANT, STEPS, W, WAVE};

pub const EXACT: &str = "fill=\"#dedede\" stroke=\"#8c8c8c\" stroke-width=\"1\"";
pub const LIBRARY: &str = "stroke=\"#0b5fa5\" stroke-width=\"2.6\" stroke-linejoin=\"round\"";
pub const DOT: &str = "fill=\"#0b5fa5\"";
/// Two lines more of the library's.
pub const ORANGE: &str = "stroke=\"#c75b12\" stroke-width=\"2\" stroke-dasharray=\"7 4\"";
pub const GREEN: &str = "stroke=\"#3a7d34\" stroke-width=\"2\"";
const HARMONIC: &str = "stroke=\"#c75b12\" stroke-width=\"1.8\" stroke-dasharray=\"7 4\"";
const UPSTREAM: &str = "stroke=\"#6b6b6b\" stroke-width=\"1.8\" stroke-dasharray=\"2 4\"";

fn chart() -> Chart {
    Chart {
        corner: (80.0, 78.0),
        size: (780.0, 330.0),
        x: (0.0, W as f64),
        y: (0.0, 1.1),
    }
}

/// A row's ratios at the middles of its cells.
pub fn curve(chart: &Chart, row: &[f64]) -> Vec<Point> {
    chart.places(
        row.iter()
            .enumerate()
            .map(|(i, ratio)| (i as f64 + 0.5, *ratio)),
    )
}

fn axes(svg: &mut Svg, chart: &Chart) {
    let across: Vec<_> = (0..=W)
        .step_by(5)
        .map(|x| (x as f64, x.to_string()))
        .collect();
    let up: Vec<_> = (0..=5)
        .map(|n| f64::from(n) / 5.0)
        .map(|y| (y, format!("{y:.1}")))
        .collect();
    chart.axes(svg, &across, &up);
    chart.names(
        svg,
        "cells, from west to east",
        "gas to air (1 at the start)",
    );
}

fn exact(svg: &mut Svg, chart: &Chart) {
    let (west, east) = (WAVE.start as f64, WAVE.end as f64);
    let (x, y) = chart.at(west, 1.0);
    let (right, bottom) = chart.at(east, 0.0);
    svg.rect((x, y), right - x, bottom - y, EXACT);
}

/// The title, the line under it, the axes and the exact result; `numbers` are the lines under the chart.
pub fn sheet(title: &str, more: &str, numbers: &[String]) -> (Svg, Chart) {
    let height = 480 + 19 * numbers.len() as u32;
    let mut svg = Svg::new(900, height, title, &numbers.join(" "));
    let chart = chart();
    svg.text((32.0, 34.0), Anchor::Start, TITLE, title);
    svg.text((32.0, 56.0), Anchor::Start, SMALL, more);
    axes(&mut svg, &chart);
    exact(&mut svg, &chart);
    (svg, chart)
}

/// The library's row, with a dot for each cell.
pub fn dotted(svg: &mut Svg, chart: &Chart, row: &[f64]) {
    let places = curve(chart, row);
    svg.line(&places, LIBRARY);
    for place in places {
        svg.circle(place, 3.4, DOT);
    }
}

/// The exact result and three rows, each with its name and what it is: the library's with dots, and two others by their styles.
pub fn legend(svg: &mut Svg, others: [&str; 2], rows: [(&str, &str); 3]) {
    let (x, y) = (102.0, 100.0);
    let sample = |n: f64| [(x, y + 38.0 * n), (x + 34.0, y + 38.0 * n)];
    svg.rect((x - 10.0, y - 16.0), 262.0, 158.0, "fill=\"#ffffff\"");
    svg.rect((x, y - 7.0), 34.0, 14.0, EXACT);
    svg.line(&sample(1.0), LIBRARY);
    svg.circle((x + 17.0, y + 38.0), 3.4, DOT);
    svg.line(&sample(2.0), others[0]);
    svg.line(&sample(3.0), others[1]);
    let exact = ("start, and exact result", "the wave is back at its place");
    for (n, (name, more)) in std::iter::once(exact).chain(rows).enumerate() {
        let line = y + 38.0 * n as f64;
        svg.text((x + 44.0, line + 4.0), Anchor::Start, WORDS, name);
        svg.text(
            (x + 44.0, line + 19.0),
            Anchor::Start,
            "font-size=\"12\" fill=\"#666666\"",
            more,
        );
    }
}

/// The picture; `numbers` are the lines under it.
pub fn draw(run: &Run, numbers: &[String]) -> String {
    let title = "Rectangular wave, five times round a row of 50 cells";
    let more =
        format!("Courant number 0.5, {STEPS} steps, as in Figure 3 of Lin and others (1994)");
    let (mut svg, chart) = sheet(title, &more, numbers);
    let compared = |mismatch| {
        curve(
            &chart,
            &plain::carried(&run.before, COURANT, STEPS, mismatch),
        )
    };
    svg.line(&compared(plain::upstream), UPSTREAM);
    svg.line(&compared(plain::harmonic), HARMONIC);
    dotted(&mut svg, &chart, &run.after);
    let rows = [
        ("the proved library", "constraint (5), whole numbers"),
        ("constraint (4)", "floating point, to compare"),
        ("first-order upstream scheme", "floating point, to compare"),
    ];
    legend(&mut svg, [HARMONIC, UPSTREAM], rows);
    svg.lines((32.0, 478.0), WORDS, numbers);
    svg.finish()
}
