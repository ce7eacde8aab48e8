//! The picture of the wave by long sweeps.

use crate::draw_wave::{curve, dotted, sheet, DOT, EXACT, GREEN, LIBRARY, ORANGE};
use crate::long::{Run, Sweep};
use crate::svg::{Anchor, Svg, WORDS};

/// The long sweeps, by Courant number.
const LONG: [&str; 3] = [
    ORANGE,
    GREEN,
    "stroke=\"#8a2b87\" stroke-width=\"2\" stroke-dasharray=\"2 4\"",
];

/// The zonal sweeps of Courant number 0.5, then the long ones.
fn drawn(runs: &[Run]) -> (Option<&Run>, Vec<&Run>) {
    let zonal = runs.iter().find(|run| run.sweep == Sweep::Zonal);
    let long = runs.iter().filter(|run| run.sweep == Sweep::Long);
    (zonal, long.collect())
}

fn legend(svg: &mut Svg, long: &[&Run]) {
    let (x, y) = (102.0, 100.0);
    let sample = |n: f64| [(x, y + 28.0 * n), (x + 34.0, y + 28.0 * n)];
    svg.rect((x - 10.0, y - 16.0), 250.0, 148.0, "fill=\"#ffffff\"");
    svg.rect((x, y - 7.0), 34.0, 14.0, EXACT);
    svg.line(&sample(1.0), LIBRARY);
    svg.circle((x + 17.0, y + 28.0), 3.4, DOT);
    let mut names = vec![
        "start, and exact result".to_string(),
        "zonal sweeps of 0.5 cells".to_string(),
    ];
    for (n, (run, style)) in long.iter().zip(LONG).enumerate() {
        svg.line(&sample(2.0 + n as f64), style);
        names.push(format!("long sweeps of {:.1} cells", run.courant));
    }
    for (n, name) in names.iter().enumerate() {
        let place = (x + 44.0, y + 28.0 * n as f64 + 4.0);
        svg.text(place, Anchor::Start, WORDS, name);
    }
}

/// The picture; `numbers` are the lines under it.
pub fn draw(runs: &[Run], numbers: &[String]) -> String {
    let title = "The same wave by long sweeps, five times round the row";
    let more = "Fewer and longer steps, beside the zonal sweeps of Courant number 0.5; all by the proved library";
    let (mut svg, chart) = sheet(title, more, numbers);
    let (zonal, long) = drawn(runs);
    if let Some(run) = zonal {
        dotted(&mut svg, &chart, &run.wave.after);
    }
    for (run, style) in long.iter().zip(LONG) {
        svg.line(&curve(&chart, &run.wave.after), style);
    }
    legend(&mut svg, &long);
    svg.lines((32.0, 478.0), WORDS, numbers);
    svg.finish()
}
