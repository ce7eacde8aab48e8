//! The wave again, as many times round the row, by long sweeps and by zonal sweeps of larger Courant numbers.

use crate::progress::Progress;
use crate::wave::{self, FLUX, STEPS, W};
use crate::world::World;
use puldeho::Refusal;

/// The half cells that the row moves in a sweep: Courant numbers 0.5, 1.5 and 4.5. Whole ones are exact shifts.
const HALVES: [u32; 3] = [1, 3, 9];

#[derive(Clone, Copy, PartialEq)]
pub enum Sweep {
    Long,
    Zonal,
}

pub struct Run {
    pub sweep: Sweep,
    /// Cells in a sweep.
    pub courant: f64,
    /// The sweeps of that Courant number, and the cells of one more, which ends the last turn; 0 if there is none.
    pub sweeps: u32,
    pub rest: f64,
    pub wave: wave::Run,
}

/// Moves the row by so many half cells.
fn sweep_row(world: &mut World, sweep: Sweep, halves: u32) -> Result<u32, Refusal> {
    let fluxes = [FLUX * halves as i32; W];
    match sweep {
        Sweep::Zonal => world.zonal(0, &fluxes),
        Sweep::Long => world.long_zonal(0, &fluxes).map(|()| 0),
    }
}

fn one(sweep: Sweep, halves: u32) -> Result<Run, Refusal> {
    let mut world = wave::start(&[wave::FULL])?;
    let before = wave::row(&world, 0);
    let mut watch = wave::watch(&world, 0)?;
    let (sweeps, rest) = (STEPS / halves, STEPS % halves);
    for _ in 0..sweeps {
        let substeps = sweep_row(&mut world, sweep, halves)?;
        watch.step(&world, substeps);
    }
    if rest > 0 {
        let substeps = sweep_row(&mut world, sweep, rest)?;
        watch.step(&world, substeps);
    }
    Ok(Run {
        sweep,
        courant: f64::from(halves) / 2.0,
        sweeps,
        rest: f64::from(rest) / 2.0,
        wave: wave::Run {
            before,
            after: wave::row(&world, 0),
            record: watch.end(&world)?,
        },
    })
}

/// For each Courant number the long sweeps and the zonal ones.
pub fn run() -> Result<Vec<Run>, Refusal> {
    let kinds = HALVES
        .iter()
        .flat_map(|&halves| [(Sweep::Long, halves), (Sweep::Zonal, halves)]);
    let mut progress = Progress::new("the wave by long sweeps", 2 * HALVES.len() as u32);
    let made = kinds.zip(1..).map(|((sweep, halves), done)| {
        let run = one(sweep, halves);
        progress.step(done);
        run
    });
    made.collect()
}

#[cfg(test)]
mod tests {
    #[test]
    fn five_turns() {
        for halves in super::HALVES {
            let run = super::one(super::Sweep::Long, halves).unwrap();
            let cells = f64::from(run.sweeps) * run.courant + run.rest;
            assert_eq!(cells, 5.0 * super::W as f64);
        }
    }
}
