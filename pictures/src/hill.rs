//! The second experiment: the cosine hill of source 001's Figure 5, once round the sphere over both poles.

use crate::progress::Progress;
use crate::sphere::{self, Wind, CELLS, R};
use crate::world::{Record, Watch, World};
use puldeho::Refusal;
use std::f64::consts::PI;

pub const STEPS: u32 = 900;
/// The units of gas for one unit of air where the hill is 1 high.
const UNIT: u32 = 200;
/// The row and the column of the cell over which the hill starts: 270 degrees east, 2 degrees north.
const ROW: usize = R / 2;
pub const COLUMN: usize = 54;
/// The hill's radius, in radians.
pub const RADIUS: f64 = 7.0 * PI / 64.0;
/// The steps after which the world is drawn.
pub const DRAWN: [u32; 4] = [0, STEPS / 4, STEPS / 2, STEPS];

pub struct Run {
    /// Every cell's ratio after each of the steps that are drawn.
    pub drawn: Vec<Vec<f64>>,
    pub record: Record,
}

/// Where the exact hill's centre is after so many steps: it goes north along 270 degrees east, and south along 90.
pub fn exact_centre(steps: f64) -> (f64, f64) {
    let start = sphere::centre(sphere::cell(ROW, COLUMN));
    let along = (start.1 + 360.0 * steps / f64::from(STEPS)).rem_euclid(360.0);
    match along {
        _ if along <= 90.0 => (start.0, along),
        _ if along < 270.0 => ((start.0 + 180.0) % 360.0, 180.0 - along),
        _ => (start.0, along - 360.0),
    }
}

/// The greatest ratio, and the first cell that has it.
pub fn peak(ratios: &[f64]) -> (f64, usize) {
    let pairs = ratios.iter().copied().zip(0..);
    pairs.fold((f64::NEG_INFINITY, 0), |best, one| {
        if one.0 > best.0 {
            one
        } else {
            best
        }
    })
}

/// The place above the gas's centre of mass, from the ratios of a world whose air is as loaded.
pub fn gas_centre(ratios: &[f64]) -> (f64, f64) {
    let mut sum = [0.0; 3];
    for (cell, (ratio, air)) in ratios.iter().zip(sphere::air()).enumerate() {
        let point = sphere::point(sphere::centre(cell));
        for axis in 0..3 {
            sum[axis] += ratio * f64::from(air) * point[axis];
        }
    }
    let longitude = sum[1].atan2(sum[0]).to_degrees().rem_euclid(360.0);
    (longitude, sum[2].atan2(sum[0].hypot(sum[1])).to_degrees())
}

/// The hill's height at a place, 1 at its centre.
fn height(place: (f64, f64)) -> f64 {
    let far = sphere::distance(place, exact_centre(0.0));
    if far < RADIUS {
        (1.0 + (PI * far / RADIUS).cos()) / 2.0
    } else {
        0.0
    }
}

fn start() -> Result<World, Refusal> {
    let air = sphere::air();
    let gas = |cell: usize| f64::from(air[cell]) * f64::from(UNIT) * height(sphere::centre(cell));
    let gas = (0..CELLS).map(|cell| gas(cell).round() as u32).collect();
    World::load(sphere::W as u32, R as u32, air, gas)
}

/// Sweeps every row; the greatest number of substeps.
fn sweep_rows(world: &mut World, wind: &Wind) -> Result<u32, Refusal> {
    let mut most = 0;
    for (row, fluxes) in wind.zonal.iter().enumerate() {
        most = most.max(world.zonal(row as u32, fluxes)?);
    }
    Ok(most)
}

/// One step: all rows and the layer, in one order after an even number of steps and in the other after an odd one.
fn step(world: &mut World, wind: &Wind, before: u32) -> Result<u32, Refusal> {
    if before.is_multiple_of(2) {
        let most = sweep_rows(world, wind)?;
        world.meridional(&wind.meridional)?;
        Ok(most)
    } else {
        world.meridional(&wind.meridional)?;
        sweep_rows(world, wind)
    }
}

pub fn run() -> Result<Run, Refusal> {
    let wind = sphere::over_the_poles(STEPS);
    let mut world = start()?;
    let mut watch = Watch::start(&world, 0, UNIT, 0..CELLS)?;
    let mut drawn = vec![world.ratios(0, UNIT)];
    let mut progress = Progress::new("hill over the poles", STEPS);
    for before in 0..STEPS {
        let most = step(&mut world, &wind, before)?;
        watch.step(&world, most);
        if DRAWN.contains(&(before + 1)) {
            drawn.push(world.ratios(0, UNIT));
        }
        progress.step(before + 1);
    }
    Ok(Run {
        drawn,
        record: watch.end(&world)?,
    })
}

#[cfg(test)]
mod tests {
    use super::*;

    #[test]
    fn the_exact_hill_goes_over_both_poles() {
        let cases = [
            (0.0, (270.0, 2.0)),
            (220.0, (270.0, 90.0)),
            (225.0, (90.0, 88.0)),
            (450.0, (90.0, -2.0)),
            (670.0, (270.0, -90.0)),
            (900.0, (270.0, 2.0)),
        ];
        for (steps, want) in cases {
            let apart = sphere::distance(exact_centre(steps), want);
            assert!(apart < 1e-9, "{steps} steps: {apart}");
        }
    }

    #[test]
    fn the_gas_starts_round_the_hills_centre() {
        let world = start().unwrap();
        let apart = sphere::distance(gas_centre(&world.ratios(0, UNIT)), exact_centre(0.0));
        assert!(apart < 1e-3, "{apart}");
    }
}
