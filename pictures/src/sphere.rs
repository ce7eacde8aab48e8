//! The grid of source 001 (4 by 5 degrees) on the sphere: air by area, and a wind over the poles, in whole numbers.
//!
//! Column i is centred at 5·i degrees east; its east face is 2.5 degrees further. Row r lies between
//! 4·r − 88 and 4·r − 84 degrees north. Each cap is what is left within 2 degrees of its pole.

use std::f64::consts::TAU;

pub const W: usize = 72;
pub const R: usize = 44;
pub const CELLS: usize = 2 + R * W;
/// A cell's size in degrees.
pub const NORTHWARD: f64 = 4.0;
pub const EASTWARD: f64 = 5.0;
/// The air in a cell next to the equator. All others have theirs by area.
pub const AIR: f64 = 60_000.0;

/// The latitude of edge g of the rows, in degrees: edge r is the south edge of row r.
pub fn edge(g: usize) -> f64 {
    NORTHWARD * (g as f64 - R as f64 / 2.0)
}

/// The longitude of the east face of column i, in degrees.
pub fn face(i: usize) -> f64 {
    EASTWARD * (i as f64 + 0.5)
}

/// Longitude and latitude of a cell's centre, in degrees.
pub fn centre(cell: usize) -> (f64, f64) {
    match cell {
        0 => (0.0, -90.0),
        _ if cell == CELLS - 1 => (0.0, 90.0),
        _ => {
            let (r, i) = ((cell - 1) / W, (cell - 1) % W);
            (EASTWARD * i as f64, edge(r) + NORTHWARD / 2.0)
        }
    }
}

/// The number of the cell in a row and a column.
pub fn cell(row: usize, column: usize) -> usize {
    1 + row * W + column
}

fn sine(degrees: f64) -> f64 {
    degrees.to_radians().sin()
}

/// Units of air for one unit of area on a sphere of radius 1.
fn density() -> f64 {
    AIR / (EASTWARD.to_radians() * sine(NORTHWARD))
}

/// Every cell's air: its area, in whole units.
pub fn air() -> Vec<u32> {
    let cap = TAU * (1.0 - sine(edge(R)));
    let mut areas = vec![cap];
    for r in 0..R {
        let area = EASTWARD.to_radians() * (sine(edge(r + 1)) - sine(edge(r)));
        areas.extend([area; W]);
    }
    areas.push(cap);
    areas
        .iter()
        .map(|area| (area * density()).round() as u32)
        .collect()
}

/// The fluxes of one step, from a streamfunction at the cells' corners.
pub struct Wind {
    /// For each row, the flux through the east face of each column.
    pub zonal: Vec<Vec<i32>>,
    /// All fluxes of the meridional sweep.
    pub meridional: Vec<i32>,
}

/// Turns the sphere round an axis through the equator at 0 degrees east, once in `steps` steps:
/// northward at 270 degrees east, over the north pole, southward at 90 degrees east.
///
/// The streamfunction is rounded once at each corner. A flux is the difference of its two corners, so
/// that what enters a cell in one step through its four faces, or a cap through its W, leaves it too.
pub fn over_the_poles(steps: u32) -> Wind {
    let height = density() * TAU / f64::from(steps);
    let corner = |g: usize, i: usize| -> i32 {
        let (longitude, latitude) = (face(i % W).to_radians(), edge(g).to_radians());
        (height * longitude.cos() * latitude.cos()).round() as i32
    };
    let eastward = |r: usize, i: usize| corner(r, i) - corner(r + 1, i);
    let northward = |g: usize, i: usize| corner(g, i) - corner(g, i + W - 1);
    Wind {
        zonal: (0..R)
            .map(|r| (0..W).map(|i| eastward(r, i)).collect())
            .collect(),
        meridional: (0..(R + 1) * W).map(|f| northward(f / W, f % W)).collect(),
    }
}

/// The place as a point of the sphere of radius 1: towards 0 east, towards 90 east, towards the north pole.
pub fn point((longitude, latitude): (f64, f64)) -> [f64; 3] {
    let (a, b) = (longitude.to_radians(), latitude.to_radians());
    [b.cos() * a.cos(), b.cos() * a.sin(), b.sin()]
}

/// The distance between two places in radians, along a great circle.
pub fn distance(one: (f64, f64), other: (f64, f64)) -> f64 {
    let (a, b) = (point(one), point(other));
    let chord: f64 = a
        .iter()
        .zip(&b)
        .map(|(x, y)| (x - y) * (x - y))
        .sum::<f64>()
        .sqrt();
    2.0 * (chord / 2.0).min(1.0).asin()
}

#[cfg(test)]
mod tests {
    use super::*;

    /// What each cell gains in one step by all fluxes.
    fn gains(wind: &Wind) -> Vec<i32> {
        let mut gains = vec![0; CELLS];
        let mut pass = |from: usize, to: usize, flux: i32| {
            gains[from] -= flux;
            gains[to] += flux;
        };
        for r in 0..R {
            for i in 0..W {
                pass(cell(r, i), cell(r, (i + 1) % W), wind.zonal[r][i]);
            }
        }
        for (f, flux) in wind.meridional.iter().enumerate() {
            let (g, i) = (f / W, f % W);
            let south = if g == 0 { 0 } else { cell(g - 1, i) };
            let north = if g == R { CELLS - 1 } else { cell(g, i) };
            pass(south, north, *flux);
        }
        gains
    }

    #[test]
    fn every_cell_loses_what_it_gains() {
        for steps in [1, 7, 900] {
            assert_eq!(gains(&over_the_poles(steps)), vec![0; CELLS]);
        }
    }

    #[test]
    fn the_wind_goes_north_at_270_east_and_south_at_90() {
        let wind = over_the_poles(900);
        let equator = &wind.meridional[R / 2 * W..][..W];
        assert_eq!(equator.iter().max(), Some(&equator[54]));
        assert_eq!(equator.iter().min(), Some(&equator[18]));
        // A step is 0.4 degrees, and a cell 4.
        let share = f64::from(equator[54]) / AIR;
        assert!((share - 0.1).abs() < 0.001, "{share}");
    }

    #[test]
    fn the_air_is_the_area_of_the_sphere() {
        let air: f64 = air().into_iter().map(f64::from).sum();
        assert!((air / density() / (2.0 * TAU) - 1.0).abs() < 1e-5);
    }
}
