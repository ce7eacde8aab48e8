//! A world of one layer in the proved library, and what is recorded of a gas in a run.

use puldeho::{Grid, Limiter, Refusal};
use std::ops::Range;

pub struct World(puldeho::World);

impl World {
    /// The world after an accepted load; `gases` has one gas after the other, each with an amount for every cell.
    pub fn load(w: u32, r: u32, air: Vec<u32>, gases: Vec<u32>) -> Result<World, Refusal> {
        let n = (gases.len() / air.len()) as u32;
        puldeho::World::load(Grid { w, r, k: 1, n }, air, gases).map(World)
    }

    /// The numbers of the gases.
    pub fn gases(&self) -> Range<u32> {
        0..self.0.grid().n
    }

    /// Chooses a gas's limiter.
    pub fn set_limiter(&mut self, gas: u32, limiter: Limiter) -> Result<(), Refusal> {
        self.0.set_limiter(gas, limiter)
    }

    /// Sweeps one row; the number of substeps.
    pub fn zonal(&mut self, row: u32, fluxes: &[i32]) -> Result<u32, Refusal> {
        self.0.zonal(0, row, fluxes)
    }

    /// Sweeps one row without substeps.
    pub fn long_zonal(&mut self, row: u32, fluxes: &[i32]) -> Result<(), Refusal> {
        self.0.long_zonal(0, row, fluxes)
    }

    /// Sweeps the layer.
    pub fn meridional(&mut self, fluxes: &[i32]) -> Result<u32, Refusal> {
        self.0.meridional(0, fluxes)
    }

    /// A gas's total, as the library reads it.
    pub fn total(&self, gas: u32) -> Result<u32, Refusal> {
        self.0.total(gas)
    }

    /// The air of every cell.
    pub fn air(&self) -> &[u32] {
        self.0.air()
    }

    /// A gas's amount in every cell.
    pub fn amounts(&self, gas: u32) -> &[u32] {
        let cells = self.air().len();
        &self.0.tracers()[gas as usize * cells..][..cells]
    }

    /// Every cell's amount of a gas over its air, with `unit` units of gas to one unit of air as 1.
    pub fn ratios(&self, gas: u32, unit: u32) -> Vec<f64> {
        let ratio = |(air, gas): (&u32, &u32)| f64::from(*gas) / f64::from(*air) / f64::from(unit);
        self.air()
            .iter()
            .zip(self.amounts(gas))
            .map(ratio)
            .collect()
    }
}

/// What is recorded of a gas in a run.
pub struct Record {
    pub steps: u32,
    pub peak_before: f64,
    pub peak_after: f64,
    /// The greatest ratio in any cell after any step, the start not counted.
    pub greatest: f64,
    /// The steps in which the greatest ratio rose, and the most by which it did in one.
    pub rises: u32,
    pub rise: f64,
    /// The least amount and the least ratio, likewise.
    pub least_gas: u32,
    pub least: f64,
    pub total_before: u32,
    pub total_after: u32,
    /// The steps after which every cell had the air that it was loaded with.
    pub air_back: u32,
    pub most_substeps: u32,
}

impl Record {
    /// Whether the gas total is as loaded, and the air was after every step.
    pub fn check(&self) -> Result<(), String> {
        let Record {
            steps,
            air_back,
            total_before,
            total_after,
            ..
        } = self;
        if total_before != total_after {
            return Err(format!(
                "the gas total went from {total_before} to {total_after}"
            ));
        }
        if air_back != steps {
            return Err(format!(
                "the air was back after {air_back} of {steps} steps only"
            ));
        }
        Ok(())
    }
}

/// Watches a gas and the air through a run.
pub struct Watch {
    gas: u32,
    cells: Range<usize>,
    unit: u32,
    air: Vec<u32>,
    record: Record,
}

fn greatest(ratios: &[f64]) -> f64 {
    ratios.iter().copied().fold(f64::NEG_INFINITY, f64::max)
}

fn least(ratios: &[f64]) -> f64 {
    ratios.iter().copied().fold(f64::INFINITY, f64::min)
}

impl Watch {
    /// Watches a gas's ratios in some cells, and the air and its total in all.
    pub fn start(
        world: &World,
        gas: u32,
        unit: u32,
        cells: Range<usize>,
    ) -> Result<Watch, Refusal> {
        let ratios = &world.ratios(gas, unit)[cells.clone()];
        let total = world.total(gas)?;
        let record = Record {
            steps: 0,
            peak_before: greatest(ratios),
            peak_after: greatest(ratios),
            greatest: f64::NEG_INFINITY,
            rises: 0,
            rise: 0.0,
            least_gas: u32::MAX,
            least: f64::INFINITY,
            total_before: total,
            total_after: total,
            air_back: 0,
            most_substeps: 0,
        };
        Ok(Watch {
            gas,
            cells,
            unit,
            air: world.air().to_vec(),
            record,
        })
    }

    /// Records the world after a step whose sweeps took at most `substeps` substeps.
    pub fn step(&mut self, world: &World, substeps: u32) {
        let ratios = &world.ratios(self.gas, self.unit)[self.cells.clone()];
        let amounts = &world.amounts(self.gas)[self.cells.clone()];
        let record = &mut self.record;
        record.steps += 1;
        let peak = greatest(ratios);
        record.rises += u32::from(peak > record.peak_after);
        record.rise = record.rise.max(peak - record.peak_after);
        record.peak_after = peak;
        record.greatest = record.greatest.max(peak);
        record.least = record.least.min(least(ratios));
        record.least_gas = amounts.iter().copied().fold(record.least_gas, u32::min);
        record.air_back += u32::from(world.air() == self.air);
        record.most_substeps = record.most_substeps.max(substeps);
    }

    pub fn end(mut self, world: &World) -> Result<Record, Refusal> {
        self.record.total_after = world.total(self.gas)?;
        Ok(self.record)
    }
}
