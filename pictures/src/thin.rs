//! A thin gas: a hill of one unit of gas in a thousand of air, once round a row, at the library's scale and at the earlier one.

use crate::plain;
use crate::whole::{Row, EARLIER, NOW};
use crate::world::{Record, Watch, World};
use puldeho::Refusal;
use std::error::Error;
use std::f64::consts::TAU;

pub const W: usize = 72;
pub const AIR: u32 = 60_000;
/// The hill's height, in units of gas: a thousandth of a cell's air.
pub const TOP: u32 = AIR / 1_000;
const FLUX: i32 = 45_000;
pub const COURANT: f64 = 0.75;
/// How many times as many units the same hill has, to compare.
pub const RICHER: u32 = 100;
/// Once round the row.
pub const STEPS: u32 = 96;

pub struct Run {
    /// The row's gas at the start; it is the exact result too.
    pub before: Vec<f64>,
    /// What the library leaves, and what the scheme leaves at the earlier scale.
    pub after: Vec<f64>,
    pub earlier: Vec<f64>,
    /// The slopes of the cells at the start: at the earlier scale, at the library's, without a scale.
    pub slopes: [Vec<f64>; 3],
    /// The part of the gas out of its place, in per cent, if the hill has so many times as many units: in the library, and in
    /// floating point.
    pub richer: [f64; 2],
    pub record: Record,
}

/// What the library leaves of a hill.
struct Carried {
    gas: Vec<u32>,
    record: Record,
}

fn row(scale: i64) -> Row {
    Row {
        scale,
        air: AIR.into(),
        flux: FLUX.into(),
    }
}

/// A cosine hill as wide as the row.
fn hill(top: u32) -> Vec<u32> {
    let height = |i: usize| (1.0 - (TAU * i as f64 / W as f64).cos()) / 2.0;
    let units = (0..W).map(|i| (f64::from(top) * height(i)).round() as u32);
    units.collect()
}

fn floats(row: &[u32]) -> Vec<f64> {
    row.iter().map(|&units| units.into()).collect()
}

fn wide(row: &[u32]) -> Vec<i64> {
    row.iter().map(|&units| units.into()).collect()
}

/// Carries a hill round the row in the library.
fn carried(hill: &[u32]) -> Result<Carried, Refusal> {
    let mut gas = vec![0; W + 2];
    gas[1..=W].copy_from_slice(hill);
    let mut world = World::load(W as u32, 1, vec![AIR; W + 2], gas)?;
    let mut watch = Watch::start(&world, 0, 1, 1..W + 1)?;
    for _ in 0..STEPS {
        let substeps = world.zonal(0, &[FLUX; W])?;
        watch.step(&world, substeps);
    }
    Ok(Carried {
        gas: world.amounts(0)[1..=W].to_vec(),
        record: watch.end(&world)?,
    })
}

/// The mismatches of constraint (5) in floating point.
fn exact_slopes(row: &[f64]) -> Vec<f64> {
    let slope = |i: usize| plain::monotonic(row[(i + W - 1) % W], row[i], row[(i + 1) % W]);
    (0..W).map(slope).collect()
}

/// The row once round by constraint (5) in floating point.
fn floating(row: &[f64]) -> Vec<f64> {
    plain::carried(row, COURANT, STEPS, plain::monotonic)
}

impl Run {
    /// The slopes of all cells together, in per cent of those without a scale: at the earlier scale, and now.
    pub fn slope_kept(&self) -> (f64, f64) {
        let sum = |slopes: &[f64]| slopes.iter().map(|slope| slope.abs()).sum::<f64>();
        let [earlier, now, exact] = &self.slopes;
        (
            100.0 * sum(earlier) / sum(exact),
            100.0 * sum(now) / sum(exact),
        )
    }

    /// The gas out of its place in per cent: at the earlier scale, now, and in floating point.
    pub fn misplaced(&self) -> [f64; 3] {
        let floating = floating(&self.before);
        [&self.earlier, &self.after, &floating].map(|row| plain::misplaced(&self.before, row))
    }
}

/// Fails if a sweep is refused, or if whole.rs does not give at the library's scale what the library gives.
pub fn run() -> Result<Run, Box<dyn Error>> {
    let thin = hill(TOP);
    let (start, left) = (wide(&thin), carried(&thin)?);
    if row(NOW).carried(&start, STEPS) != wide(&left.gas) {
        return Err("whole.rs does not give at the library's scale what the library gives".into());
    }
    let earlier = row(EARLIER).carried(&start, STEPS);
    let rich = hill(RICHER * TOP);
    let rich_left = floats(&carried(&rich)?.gas);
    let before = floats(&thin);
    let slopes = [
        row(EARLIER).slopes(&start),
        row(NOW).slopes(&start),
        exact_slopes(&before),
    ];
    Ok(Run {
        earlier: earlier.iter().map(|&units| units as f64).collect(),
        after: floats(&left.gas),
        before,
        slopes,
        richer: [rich_left, floating(&floats(&rich))]
            .map(|row| plain::misplaced(&floats(&rich), &row)),
        record: left.record,
    })
}

#[cfg(test)]
mod tests {
    #[test]
    fn once_round() {
        assert_eq!(super::COURANT * f64::from(super::STEPS), super::W as f64);
        assert_eq!(
            f64::from(super::FLUX),
            super::COURANT * f64::from(super::AIR)
        );
    }
}
