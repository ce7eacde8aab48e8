//! Schemes of source 001 in floating point, for a row: only to draw and to compare with.

/// The mismatch of a cell from its ratio and those of its neighbours.
pub type Mismatch = fn(west: f64, own: f64, east: f64) -> f64;

/// No mismatch: the first-order upstream scheme.
pub fn upstream(_: f64, _: f64, _: f64) -> f64 {
    0.0
}

/// Equation (4): the harmonic mean of the two differences, 0 at an extremum.
pub fn harmonic(west: f64, own: f64, east: f64) -> f64 {
    let (one, other) = (own - west, east - own);
    if one * other > 0.0 {
        2.0 * one * other / (one + other)
    } else {
        0.0
    }
}

/// Equation (3c): the mean of the two differences, cut so that the cell's distribution stays between two bounds.
fn bounded((west, own, east): (f64, f64, f64), least: f64, greatest: f64) -> f64 {
    let mean = (east - west) / 2.0;
    let (above, below) = ((own - least).max(0.0), (greatest - own).max(0.0));
    let size = mean.abs().min(2.0 * above).min(2.0 * below);
    size.copysign(mean)
}

/// Equation (5), which document 01 puts on whole numbers: the bounds are the least and the greatest of the three.
pub fn monotonic(west: f64, own: f64, east: f64) -> f64 {
    let (least, greatest) = (own.min(west).min(east), own.max(west).max(east));
    bounded((west, own, east), least, greatest)
}

/// Equation (3b): nothing below 0.
pub fn positive(west: f64, own: f64, east: f64) -> f64 {
    bounded((west, own, east), 0.0, f64::INFINITY)
}

/// Equation (6): the bounds 0 and 1 in every cell.
pub fn fixed(west: f64, own: f64, east: f64) -> f64 {
    bounded((west, own, east), 0.0, 1.0)
}

/// The ratios after so many steps eastward round the row, each of `courant` cells.
pub fn carried(before: &[f64], courant: f64, steps: u32, mismatch: Mismatch) -> Vec<f64> {
    let w = before.len();
    let mut row = before.to_vec();
    for _ in 0..steps {
        let slope = |i: usize| mismatch(row[(i + w - 1) % w], row[i], row[(i + 1) % w]);
        let given = |i: usize| courant * (row[i] + slope(i) / 2.0 * (1.0 - courant));
        let given: Vec<f64> = (0..w).map(given).collect();
        for i in 0..w {
            row[i] += given[(i + w - 1) % w] - given[i];
        }
    }
    row
}

/// The greatest difference between two rows.
pub fn difference(one: &[f64], other: &[f64]) -> f64 {
    one.iter()
        .zip(other)
        .map(|(a, b)| (a - b).abs())
        .fold(0.0, f64::max)
}

pub fn greatest(row: &[f64]) -> f64 {
    row.iter().copied().fold(f64::NEG_INFINITY, f64::max)
}

/// The root of the mean square of two rows' differences.
pub fn root_mean_square(one: &[f64], other: &[f64]) -> f64 {
    let squares: f64 = (one.iter().zip(other)).map(|(a, b)| (a - b).powi(2)).sum();
    (squares / one.len() as f64).sqrt()
}

/// The part of a row's gas that is not where the exact result has it, in per cent; all cells have the same air.
pub fn misplaced(exact: &[f64], row: &[f64]) -> f64 {
    let total: f64 = exact.iter().sum();
    let apart: f64 = (exact.iter().zip(row)).map(|(a, b)| (a - b).abs()).sum();
    // What lacks in one cell is too much in another.
    100.0 * apart / 2.0 / total
}
