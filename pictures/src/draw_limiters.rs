//! The picture of the wave with three limiters.

use crate::draw_wave::{curve, dotted, legend, sheet, GREEN, ORANGE};
use crate::limiters::Run;
use crate::svg::WORDS;
use crate::wave::STEPS;

/// The second limiter and the third.
const OTHERS: [&str; 2] = [ORANGE, GREEN];

/// The picture; `numbers` are the lines under it.
pub fn draw(run: &Run, numbers: &[String]) -> String {
    let title = "The same wave with three limiters, as three gases of one world";
    let more = format!(
        "Courant number 0.5, {STEPS} steps; all by the proved library, \
         beside what Lin and others (1994) say about their Figure 3"
    );
    let (mut svg, chart) = sheet(title, &more, numbers);
    dotted(&mut svg, &chart, &run.gases[0].wave.after);
    for (gas, style) in run.gases[1..].iter().zip(OTHERS) {
        svg.line(&curve(&chart, &gas.wave.after), style);
    }
    let rows = [
        ("limiter 1, the present one", "constraint (5), local bounds"),
        (
            "limiter 2, the positive one",
            "constraint (3b), nothing below 0",
        ),
        ("limiter 3, the fixed one", "constraint (6), bounds 0 and 1"),
    ];
    legend(&mut svg, OTHERS, rows);
    svg.lines((32.0, 478.0), WORDS, numbers);
    svg.finish()
}
