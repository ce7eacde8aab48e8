//! "Zonal sweep of one row in one layer."

use crate::grid::{signed, write, Grid, World};
use crate::limiter::Limiter;
use crate::scheme::parts;
use crate::substep::{Face, Neighbours, Region};
use crate::{ledger, refusal};
use std::ops::Range;

/// "size above 1,048,560 (zonal)"
const MOST_FLUX: u32 = 1_048_560;
/// "the sweep uses the smallest n from 1 to 16"
const MOST_SUBSTEPS: u32 = 16;

/// "flux i crosses the face from column i to column i + 1 (the last to column 0), positive
/// eastward. High side is east."
fn region(columns: usize) -> Region {
    let east = |i: usize| (i + 1) % columns;
    let west = |i: usize| (i + columns - 1) % columns;
    Region {
        faces: (0..columns)
            .map(|i| Face {
                low: i,
                high: east(i),
            })
            .collect(),
        neighbours: (0..columns)
            .map(|i| {
                Some(Neighbours {
                    low: west(i),
                    high: east(i),
                })
            })
            .collect(),
    }
}

/// "n serves if all n substeps, one after another, are allowed"
fn serves(region: &Region, air: &[i64], fluxes: &[i64], n: u32) -> bool {
    let mut air = air.to_vec();
    (1..=n).all(|s| {
        let part = parts(fluxes, i64::from(s), i64::from(n));
        let allowed = region.allowed(&air, &part);
        air = region.air_after(&air, &part);
        allowed
    })
}

/// "the sweep uses the smallest n from 1 to 16, and that n is its count"; if none serves,
/// refusal 9.
fn smallest_count(region: &Region, air: &[i64], fluxes: &[i64]) -> Result<u32, u32> {
    (1..=MOST_SUBSTEPS)
        .find(|&n| serves(region, air, fluxes, n))
        .ok_or(refusal::ZONAL)
}

/// A row's cells and its fluxes.
type Row = (Range<usize>, Vec<i64>);

/// The row of a zonal or a long zonal sweep, or refusal 5 or 8.
pub(crate) fn row_of(grid: Grid, layer: u32, row: u32, fluxes: &[i32]) -> Result<Row, u32> {
    let layer = Grid::present(layer, grid.layers())?;
    let row = Grid::present(row, grid.rows())?;
    if fluxes.iter().any(|flux| flux.unsigned_abs() > MOST_FLUX) {
        return Err(refusal::FLUX);
    }
    let fluxes = fluxes.iter().map(|&flux| i64::from(flux)).collect();
    Ok((grid.row_range(layer, row), fluxes))
}

/// A sweep that no place refuses, before it is made: the tracers' limiters, its row's cells, its
/// fluxes, and the smallest count that serves.
pub(crate) struct Ready {
    limiters: Vec<Limiter>,
    cells: Range<usize>,
    fluxes: Vec<i64>,
    pub smallest: u32,
}

/// The sweep made ready, from the check of the limiters on, or refusal 21, 22, 5, 8 or 9.
pub(crate) fn ready(world: &World, layer: u32, row: u32, fluxes: &[i32]) -> Result<Ready, u32> {
    let grid = world.grid;
    let limiters = ledger::limiters(world)?;
    let (cells, fluxes) = row_of(grid, layer, row, fluxes)?;
    let air = signed(&world.air[cells.clone()]);
    let smallest = smallest_count(&region(grid.columns()), &air, &fluxes)?;
    Ok(Ready {
        limiters,
        cells,
        fluxes,
        smallest,
    })
}

/// The n substeps of a sweep, one after another, for an n that serves. "The sweep writes only that
/// row's cells inside its layer, in the air and in all tracers".
pub(crate) fn carry_out(world: &mut World, ready: &Ready, n: u32) {
    let Ready {
        limiters,
        cells,
        fluxes,
        ..
    } = ready;
    let region = region(world.grid.columns());
    let mut air = signed(&world.air[cells.clone()]);
    let mut tracers: Vec<Vec<i64>> = (0..world.grid.n as usize)
        .map(|t| signed(&world.tracer(t)[cells.clone()]))
        .collect();
    for s in 1..=n {
        let part = parts(fluxes, i64::from(s), i64::from(n));
        for (tracer, limiter) in tracers.iter_mut().zip(limiters) {
            *tracer = region.tracer_after(limiter, &air, tracer, &part);
        }
        air = region.air_after(&air, &part);
    }

    write(&mut world.air[cells.clone()], &air);
    for (t, tracer) in tracers.iter().enumerate() {
        write(&mut world.tracer_mut(t)[cells.clone()], tracer);
    }
}

/// The single sweep: "the sweep uses the smallest n from 1 to 16, and that n is its count".
pub fn sweep(world: &mut World, layer: u32, row: u32, fluxes: &[i32]) -> Result<u64, u32> {
    let ready = ready(world, layer, row, fluxes)?;
    carry_out(world, &ready, ready.smallest);
    Ok(u64::from(ready.smallest))
}
