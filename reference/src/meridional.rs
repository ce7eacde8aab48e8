//! "Meridional sweep of one layer."

use crate::grid::{signed, write, Grid, World};
use crate::substep::{Face, Neighbours, Region};
use crate::{ledger, refusal};

/// "size above [...] 65,535 (meridional)"
const MOST_FLUX: u32 = 65_535;

/// The cell south of face g in column i: "row −1 is the south cap".
fn south_of_face(grid: &Grid, g: usize, i: usize) -> usize {
    if g == 0 {
        0
    } else {
        1 + (g - 1) * grid.columns() + i
    }
}

/// The cell north of face g in column i: "row R [is] the north cap".
fn north_of_face(grid: &Grid, g: usize, i: usize) -> usize {
    if g == grid.rows() {
        grid.layer_cells() - 1
    } else {
        1 + g * grid.columns() + i
    }
}

/// "flux g·W + i crosses between rows g − 1 and g in column i, positive northward; row −1 is
/// the south cap, row R the north cap. High side is north."
fn region(grid: &Grid) -> Region {
    let columns = grid.columns();
    let face = |f: usize| Face {
        low: south_of_face(grid, f / columns, f % columns),
        high: north_of_face(grid, f / columns, f % columns),
    };
    // The cell of row r in column i lies between faces r and r + 1 of that column.
    let neighbours = |cell: usize| {
        let (r, i) = ((cell - 1) / columns, (cell - 1) % columns);
        Neighbours {
            low: south_of_face(grid, r, i),
            high: north_of_face(grid, r + 1, i),
        }
    };
    Region {
        faces: (0..grid.meridional_fluxes()).map(face).collect(),
        neighbours: (0..grid.layer_cells())
            .map(|cell| (!grid.is_cap(cell)).then(|| neighbours(cell)))
            .collect(),
    }
}

/// The sweep, from the check of the limiters on. "It is one substep under the same rules, with
/// count 1".
pub fn sweep(world: &mut World, layer: u32, fluxes: &[i32]) -> Result<u64, u32> {
    let grid = world.grid;
    let limiters = ledger::limiters(world)?;
    let layer = Grid::present(layer, grid.layers())?;
    if fluxes.iter().any(|flux| flux.unsigned_abs() > MOST_FLUX) {
        return Err(refusal::FLUX);
    }
    let fluxes: Vec<i64> = fluxes.iter().map(|&flux| i64::from(flux)).collect();
    let region = region(&grid);
    let cells = grid.layer_range(layer);

    let air = signed(&world.air[cells.clone()]);
    if !region.allowed(&air, &fluxes) {
        return Err(refusal::MERIDIONAL);
    }
    for (t, limiter) in limiters.iter().enumerate() {
        let tracer = signed(&world.tracer(t)[cells.clone()]);
        let after = region.tracer_after(limiter, &air, &tracer, &fluxes);
        write(&mut world.tracer_mut(t)[cells.clone()], &after);
    }
    write(
        &mut world.air[cells.clone()],
        &region.air_after(&air, &fluxes),
    );
    Ok(1)
}
