//! The first experiment: the rectangular wave of source 001's Figure 3, five times round a row of 50 cells.

use crate::plain;
use crate::progress::Progress;
use crate::world::{Record, Watch, World};
use puldeho::Refusal;

pub const W: usize = 50;
pub const STEPS: u32 = 500;
/// The cells of the wave.
pub const WAVE: std::ops::Range<usize> = 20..30;
const AIR: u32 = 60_000;
/// Half of a cell's air passes each face in a step: Courant number 0.5.
pub const FLUX: i32 = 30_000;
pub const COURANT: f64 = 0.5;
/// The units of gas for one unit of air where the wave is 1 high.
pub const UNIT: u32 = 400;

pub struct Run {
    /// The ratios of the row's cells at the start and at the end.
    pub before: Vec<f64>,
    pub after: Vec<f64>,
    pub record: Record,
}

impl Run {
    /// The part of the gas that is not where the exact result has it, in per cent.
    pub fn misplaced(&self) -> f64 {
        plain::misplaced(&self.before, &self.after)
    }
}

/// The units of gas for one unit of air outside a wave and in it.
pub type Wave = (u32, u32);
/// Source 001's wave.
pub const FULL: Wave = (0, UNIT);

/// A grid with one row, and a wave of each gas. Its caps have air and no gas, and no sweep of the row reads or writes them.
pub fn start(waves: &[Wave]) -> Result<World, Refusal> {
    let amounts = |&(outside, inside): &Wave| {
        let mut gas = vec![0; W + 2];
        gas[1..=W].fill(outside * AIR);
        gas[1..=W][WAVE].fill(inside * AIR);
        gas
    };
    let gases = waves.iter().flat_map(amounts).collect();
    World::load(W as u32, 1, vec![AIR; W + 2], gases)
}

/// A gas's ratios in the row's cells.
pub fn row(world: &World, gas: u32) -> Vec<f64> {
    world.ratios(gas, UNIT)[1..=W].to_vec()
}

pub fn watch(world: &World, gas: u32) -> Result<Watch, Refusal> {
    Watch::start(world, gas, UNIT, 1..W + 1)
}

/// Carries a world's waves; a run for each gas.
pub fn carried(mut world: World, name: &'static str) -> Result<Vec<Run>, Refusal> {
    let rows = |world: &World| -> Vec<_> { world.gases().map(|gas| row(world, gas)).collect() };
    let before = rows(&world);
    let watches = world.gases().map(|gas| watch(&world, gas));
    let mut watches = watches.collect::<Result<Vec<_>, _>>()?;
    let mut progress = Progress::new(name, STEPS);
    for done in 1..=STEPS {
        let substeps = world.zonal(0, &[FLUX; W])?;
        for watch in &mut watches {
            watch.step(&world, substeps);
        }
        progress.step(done);
    }
    let run = |((before, after), watch): (_, Watch)| {
        Ok(Run {
            before,
            after,
            record: watch.end(&world)?,
        })
    };
    let rows = before.into_iter().zip(rows(&world));
    rows.zip(watches).map(run).collect()
}

pub fn run() -> Result<Run, Refusal> {
    carried(start(&[FULL])?, "rectangular wave").map(|mut runs| runs.remove(0))
}
