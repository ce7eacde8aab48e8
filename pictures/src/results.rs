//! The numbers of the runs in words.

use crate::hill;
use crate::limiters::{self, Gas};
use crate::long::{self, Sweep};
use crate::plain;
use crate::sphere;
use crate::thin;
use crate::wave;
use crate::whole::{EARLIER, NOW};
use crate::world::Record;
use crate::Runs;

/// What the paper says that it keeps of the hill's peak, in per cent.
const PAPER: u32 = 49;

/// A number with a comma at each thousand.
fn grouped(number: u32) -> String {
    let digits = number.to_string();
    let groups: Vec<_> = digits.as_bytes().rchunks(3).rev().collect();
    let groups: Vec<_> = groups
        .iter()
        .map(|group| String::from_utf8_lossy(group))
        .collect();
    groups.join(",")
}

impl Record {
    /// The peak at the end in per cent of that at the start.
    fn kept(&self) -> f64 {
        100.0 * self.peak_after / self.peak_before
    }
}

/// The lines under a picture that both have; `more` follows the peak.
fn caption(record: &Record, more: &str) -> Vec<String> {
    let (kept, least) = (record.kept(), record.least_gas);
    let (before, after) = (grouped(record.total_before), grouped(record.total_after));
    let (back, steps) = (record.air_back, record.steps);
    vec![
        format!("Peak kept: {kept:.1} %{more}."),
        format!("Least value in any cell after any step: {least} units of gas."),
        format!("Gas total before: {before} units; after: {after} units."),
        format!("Air back exactly in every cell after {back} of {steps} steps."),
    ]
}

pub fn wave_caption(run: &wave::Run) -> Vec<String> {
    caption(&run.record, "")
}

pub fn hill_caption(run: &hill::Run) -> Vec<String> {
    caption(
        &run.record,
        &format!(" (the paper: {PAPER} %, for a hill whose radius it does not give)"),
    )
}

/// The lines about one run that both have.
fn lines(record: &Record) -> Vec<String> {
    let (kept, greatest, least) = (record.kept(), record.greatest, record.least);
    let (back, steps) = (record.air_back, record.steps);
    vec![
        format!("peak kept            {kept:.2} %"),
        format!("greatest value       {greatest:.6} in any cell after any step"),
        format!(
            "least value          {least:.6}, {} units, in any cell after any step",
            record.least_gas
        ),
        format!(
            "gas total before     {} units",
            grouped(record.total_before)
        ),
        format!("gas total after      {} units", grouped(record.total_after)),
        format!("air as loaded        in every cell after {back} of {steps} steps"),
        format!("substeps of a row    at most {}", record.most_substeps),
    ]
}

fn wave_lines(run: &wave::Run) -> Vec<String> {
    let carried = |mismatch| plain::carried(&run.before, wave::COURANT, wave::STEPS, mismatch);
    let kept = |mismatch| 100.0 * plain::greatest(&carried(mismatch));
    let apart = plain::difference(&run.after, &carried(plain::monotonic));
    let mut lines = lines(&run.record);
    lines.push(format!(
        "constraint (5) in floating point differs by at most {apart:.6}"
    ));
    lines.push(format!(
        "in floating point constraint (4) keeps {:.2} %, the first-order upstream scheme {:.2} %",
        kept(plain::harmonic),
        kept(plain::upstream)
    ));
    lines
}

/// A line for each run of the wave by long or zonal sweeps.
pub fn long_lines(runs: &[long::Run]) -> Vec<String> {
    let line = |run: &long::Run| {
        let name = match run.sweep {
            Sweep::Long => "long",
            Sweep::Zonal => "zonal",
        };
        let mut line = format!("{} {name} sweeps of {:.1} cells", run.sweeps, run.courant);
        if run.rest > 0.0 {
            line.push_str(&format!(" and one of {:.1}", run.rest));
        }
        if run.sweep == Sweep::Zonal {
            line.push_str(&format!(
                ", substeps at most {}",
                run.wave.record.most_substeps
            ));
        }
        let (kept, misplaced) = (run.wave.record.kept(), run.wave.misplaced());
        format!("{line}: peak kept {kept:.2} %, gas out of its place {misplaced:.2} %")
    };
    runs.iter().map(line).collect()
}

/// The rows of the limiters' table: their names, and what follows the numbers.
const LIMITER_ROWS: [(&str, &str); 11] = [
    ("limiter", ""),
    ("of source 001", ""),
    ("peak kept", ""),
    ("greatest value", "in any cell after any step"),
    ("least value", "in any cell after any step"),
    ("peak rises in", "steps"),
    ("peak rises by", "at most in a step"),
    ("gas out of its place", ""),
    ("worst cell", "from the exact result"),
    ("root mean square", "from the exact result"),
    ("in floating point", "at most apart"),
];

/// A limiter's column of it.
fn limiter_column(gas: &Gas) -> [String; LIMITER_ROWS.len()] {
    let (wave, record) = (&gas.wave, &gas.wave.record);
    let worst = plain::difference(&wave.before, &wave.after);
    let error = plain::root_mean_square(&wave.before, &wave.after);
    let apart = plain::difference(&wave.after, &gas.floating);
    [
        gas.number.to_string(),
        gas.constraint.to_string(),
        format!("{:.2} %", record.kept()),
        format!("{:.6}", record.greatest),
        format!("{:.6}", record.least),
        record.rises.to_string(),
        format!("{:.6}", record.rise),
        format!("{:.2} %", wave.misplaced()),
        format!("{worst:.4}"),
        format!("{error:.4}"),
        format!("{apart:.7}"),
    ]
}

/// The table, and a line about the lower wave.
fn limiter_lines(run: &limiters::Run) -> Vec<String> {
    let columns: Vec<_> = run.gases.iter().map(limiter_column).collect();
    let row = |(n, (name, more)): (usize, &(&str, &str))| {
        let numbers = columns.iter().map(|column| format!("{:>11}", column[n]));
        let numbers: String = numbers.collect();
        format!("{name:<20}{numbers}  {more}")
            .trim_end()
            .to_string()
    };
    let mut lines: Vec<_> = LIMITER_ROWS.iter().enumerate().map(row).collect();
    let (outside, record) = (run.lower.before[0], &run.lower.record);
    let (inside, least, greatest) = (record.peak_before, record.least, record.greatest);
    lines.push(format!(
        "limiter 3, same bounds, wave of {outside:.1} to {inside:.1}: {least:.4} to {greatest:.4} after any step"
    ));
    lines
}

/// The limiters under the picture, and what source 001's text says of them.
pub fn limiter_caption(run: &limiters::Run) -> Vec<String> {
    let line = |gas: &Gas| {
        let (record, number, constraint) = (&gas.wave.record, gas.number, gas.constraint);
        let (kept, most, misplaced) =
            (record.kept(), 100.0 * record.greatest, gas.wave.misplaced());
        format!("Limiter {number}, {constraint}: peak {kept:.2} % of the wave's height, at most {most:.2} % after any step; gas out of its place {misplaced:.2} %.")
    };
    let mut lines: Vec<_> = run.gases.iter().map(line).collect();
    let [first, _, third] = [0, 1, 2].map(|n| run.gases[n].wave.record.rises);
    lines.extend([
        "The paper: (3b) overshoots; (6) gives the best result for this test, and is not strictly monotonic.".to_string(),
        format!("So here. With (6) peak and worst cell are best, and the peak rises in {third} of {} steps, with (5) in {first}.", wave::STEPS),
        "But (3b), not (6), has the least gas out of its place. The paper does not say by which measure (6) is best.".to_string(),
    ]);
    lines
}

fn hill_lines(run: &hill::Run) -> Vec<String> {
    let mut lines = lines(&run.record);
    let centre = |ratios| {
        let (longitude, latitude) = hill::gas_centre(ratios);
        format!("{longitude:.2} degrees east, {latitude:.2} degrees north")
    };
    lines.push(format!(
        "centre of the gas    {} before",
        centre(&run.drawn[0])
    ));
    lines.push(format!(
        "                     {} after",
        centre(&run.drawn[3])
    ));
    lines.push(format!(
        "the paper keeps      {PAPER} % of the peak (source 001, about its Figure 5b)"
    ));
    lines
}

/// What the scale gives a thin gas, and what it does not.
fn thin_lines(run: &thin::Run) -> Vec<String> {
    let ((was, is), record) = (run.slope_kept(), &run.record);
    let [earlier, now, floating] = run.misplaced();
    let (before, after) = (grouped(record.total_before), grouped(record.total_after));
    let (times, [richer, exact]) = (thin::RICHER, run.richer);
    vec![
        format!("slope at the start   {was:.1} % of the exact one at scale {EARLIER}, {is:.1} % at {NOW}"),
        format!("gas out of its place {earlier:.2} % at scale {EARLIER}, {now:.2} % at {NOW}, {floating:.2} % in floating point"),
        format!("                     with {times} times as many units {richer:.2} % at {NOW}, {exact:.2} % in floating point"),
        format!("gas total            {before} units before, {after} units after"),
    ]
}

/// The same under the picture.
pub fn thin_caption(run: &thin::Run) -> Vec<String> {
    let ((was, is), [earlier, now, _]) = (run.slope_kept(), run.misplaced());
    let (times, [richer, _]) = (thin::RICHER, run.richer);
    vec![
        format!("Slope that the cells have at the start: {was:.1} % of the exact one at scale {EARLIER}, {is:.1} % at {NOW}."),
        format!("Gas out of its place once round the row: {earlier:.2} % at scale {EARLIER}, {now:.2} % at {NOW}."),
        format!("Most of it is that pieces are whole units of gas at any scale: with {times} times as many units {richer:.2} %."),
    ]
}

fn wave_heading() -> String {
    let (cells, all, steps) = (wave::WAVE.len(), wave::W, wave::STEPS);
    format!("Rectangular wave: {cells} of {all} cells, Courant number 0.5, {steps} steps")
}

fn hill_heading() -> String {
    let (northward, eastward, steps) = (sphere::NORTHWARD, sphere::EASTWARD, hill::STEPS);
    format!(
        "Cosine hill over the poles: {northward} x {eastward} degrees, once round in {steps} steps"
    )
}

fn thin_heading() -> String {
    let (top, cells, steps) = (thin::TOP, thin::W, thin::STEPS);
    format!("Thin gas, a hill of {top} units: once round {cells} cells in {steps} steps")
}

/// The text of results.txt.
pub fn all(runs: &Runs) -> String {
    let long_heading = "The same wave, five turns, totals and air as loaded";
    let limiter_heading = "The same wave as three gases of one world, each with its limiter, totals and air as loaded";
    let parts = [
        (wave_heading(), wave_lines(&runs.wave)),
        (long_heading.to_string(), long_lines(&runs.long)),
        (limiter_heading.to_string(), limiter_lines(&runs.limiters)),
        (hill_heading(), hill_lines(&runs.hill)),
        (thin_heading(), thin_lines(&runs.thin)),
    ];
    let mut text = String::new();
    for (heading, lines) in parts {
        text.push_str(&format!("{heading}\n"));
        for line in lines {
            text.push_str(&format!("  {line}\n"));
        }
    }
    text
}

#[cfg(test)]
mod tests {
    #[test]
    fn commas_stand_at_thousands() {
        let numbers = [0, 999, 1_000, 216_557_218].map(super::grouped);
        assert_eq!(numbers, ["0", "999", "1,000", "216,557,218"]);
    }
}
