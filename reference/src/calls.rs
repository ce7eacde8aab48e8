//! The calls, each with one answer.

use crate::grid::{Grid, World, MOST_TRACER};
use crate::{books, emitters, ledger, limiter, long, meridional, presses, refusal, remap, zonal};

/// A call with its arguments. A remap's table is one flat list a, b, a, b, ...
#[derive(Clone, Debug, PartialEq, Eq)]
pub enum Call {
    Load,
    Emission {
        tracer: u32,
        cell: u32,
        amount: u32,
    },
    Withdrawal {
        tracer: u32,
        cell: u32,
        amount: u32,
    },
    Zonal {
        layer: u32,
        row: u32,
        fluxes: Vec<i32>,
    },
    LongZonal {
        layer: u32,
        row: u32,
        fluxes: Vec<i32>,
    },
    CountZonal {
        layer: u32,
        row: u32,
        fluxes: Vec<i32>,
    },
    ZonalWithCount {
        layer: u32,
        row: u32,
        given: u32,
        fluxes: Vec<i32>,
    },
    Meridional {
        layer: u32,
        fluxes: Vec<i32>,
    },
    Remap {
        table: Vec<u32>,
    },
    Total {
        tracer: u32,
    },
    Cell {
        tracer: u32,
        cell: u32,
    },
    AddEmitter {
        tracer: u32,
        cell: u32,
        id: u32,
        units: u32,
    },
    RemoveEmitter {
        tracer: u32,
        id: u32,
    },
    Tick {
        tracer: u32,
    },
    UnitsATick {
        tracer: u32,
    },
    SetLimiter {
        tracer: u32,
        limiter: u32,
        lo: u64,
        hi: u64,
    },
}

/// The refusal's number, or 0 if accepted, and the count.
#[derive(Clone, Copy, Debug, PartialEq, Eq)]
pub struct Answer {
    pub number: u32,
    pub count: u64,
}

/// Any call on any numbers and lengths. "Each refusal returns its number with count 0 and
/// changes no lent buffer."
pub fn call(world: &mut World, call: &Call) -> Answer {
    match count_or_refusal(world, call) {
        Ok(count) => Answer { number: 0, count },
        Err(number) => Answer { number, count: 0 },
    }
}

/// "Each place is tested in row order; the first that applies is given, and never otherwise."
fn count_or_refusal(world: &mut World, call: &Call) -> Result<u64, u32> {
    world.grid.check()?;
    check_lengths(world, call)?;
    world.check_air()?;
    world.check_tracers()?;
    carry_out(world, call)
}

/// The call from its limiters on, where it tests them, else from its books on. A load tests
/// neither.
fn carry_out(world: &mut World, call: &Call) -> Result<u64, u32> {
    match call {
        Call::Load => load(world),
        Call::Zonal { layer, row, fluxes } => zonal::sweep(world, *layer, *row, fluxes),
        Call::LongZonal { layer, row, fluxes } => long::sweep(world, *layer, *row, fluxes),
        Call::CountZonal { layer, row, fluxes } => presses::count(world, *layer, *row, fluxes),
        Call::ZonalWithCount {
            layer,
            row,
            given,
            fluxes,
        } => presses::sweep_with_count(world, *layer, *row, *given, fluxes),
        Call::Meridional { layer, fluxes } => meridional::sweep(world, *layer, fluxes),
        Call::Remap { table } => remap::remap(world, table),
        _ => {
            books::check(world)?;
            carry_out_on_tracer(world, call)
        }
    }
}

/// The calls that name a tracer, from their indices on: 22 comes "before 5".
fn carry_out_on_tracer(world: &mut World, call: &Call) -> Result<u64, u32> {
    match *call {
        Call::Emission {
            tracer,
            cell,
            amount,
        } => emission(world, tracer, cell, amount),
        Call::Withdrawal {
            tracer,
            cell,
            amount,
        } => withdrawal(world, tracer, cell, amount),
        Call::Total { tracer } => total(world, tracer),
        Call::Cell { tracer, cell } => cell_amount(world, tracer, cell),
        Call::AddEmitter {
            tracer,
            cell,
            id,
            units,
        } => emitters::add(world, tracer, [cell, id, units]),
        Call::RemoveEmitter { tracer, id } => emitters::remove(world, tracer, id),
        Call::Tick { tracer } => emitters::tick(world, tracer),
        Call::UnitsATick { tracer } => emitters::units_a_tick(world, tracer),
        Call::SetLimiter {
            tracer,
            limiter,
            lo,
            hi,
        } => limiter::set(world, tracer, limiter, lo, hi),
        _ => unreachable!("the other calls have been tried"),
    }
}

/// "a lent length is not the grid's" is refusal 2: air, tracers, ledger, fluxes, table.
fn check_lengths(world: &World, call: &Call) -> Result<(), u32> {
    let grid = &world.grid;
    let arguments = match call {
        Call::Zonal { fluxes, .. }
        | Call::LongZonal { fluxes, .. }
        | Call::CountZonal { fluxes, .. }
        | Call::ZonalWithCount { fluxes, .. } => fluxes.len() == grid.zonal_fluxes(),
        Call::Meridional { fluxes, .. } => fluxes.len() == grid.meridional_fluxes(),
        Call::Remap { table } => table.len() == grid.table_numbers(),
        _ => true,
    };
    let good = world.air.len() == grid.cells()
        && world.tracers.len() == grid.tracer_amounts()
        && world.ledger.len() == ledger::numbers(grid)
        && arguments;
    good.then_some(()).ok_or(refusal::LENGTH)
}

/// "tracer, cell [...] absent" is refusal 5; "the cell numbered over all layers (0 to
/// K·C − 1) as in a reading".
pub(crate) fn check_indices(grid: &Grid, tracer: u32, cell: u32) -> Result<(usize, usize), u32> {
    let tracer = Grid::present(tracer, grid.n as usize)?;
    let cell = Grid::present(cell, grid.cells())?;
    Ok((tracer, cell))
}

/// "A load checks lent air and tracers, changes nothing in them, and they are the world from then
/// on." It writes the ledger; what stood there is not tested.
fn load(world: &mut World) -> Result<u64, u32> {
    let tracers = 0..world.grid.n as usize;
    // Place 4 is tested: a total is 32-bit.
    let totals: Vec<u32> = tracers.map(|tracer| world.total(tracer) as u32).collect();
    world.ledger = ledger::after_load(&totals);
    Ok(0)
}

/// "Emission adds [...] an amount (0 to 4,294,967,295) in one cell of one tracer";
/// "total would pass 268,435,455" is refusal 6, and so is its emitted sum above its limit.
fn emission(world: &mut World, tracer: u32, cell: u32, amount: u32) -> Result<u64, u32> {
    let (tracer, cell) = check_indices(&world.grid, tracer, cell)?;
    if world.total(tracer) + u64::from(amount) > MOST_TRACER {
        return Err(refusal::EMISSION);
    }
    books::emit(world, tracer, u64::from(amount))?;
    world.tracer_mut(tracer)[cell] += amount;
    Ok(0)
}

/// "withdrawal takes, an amount (0 to 4,294,967,295) in one cell of one tracer";
/// "cell has less than the amount" is refusal 7, and so is its withdrawn sum above its limit.
fn withdrawal(world: &mut World, tracer: u32, cell: u32, amount: u32) -> Result<u64, u32> {
    let (tracer, cell) = check_indices(&world.grid, tracer, cell)?;
    if world.tracer(tracer)[cell] < amount {
        return Err(refusal::WITHDRAWAL);
    }
    books::withdraw(world, tracer, amount)?;
    world.tracer_mut(tracer)[cell] -= amount;
    Ok(0)
}

/// "Readings give a tracer's total [...] as the count."
fn total(world: &World, tracer: u32) -> Result<u64, u32> {
    let tracer = Grid::present(tracer, world.grid.n as usize)?;
    Ok(world.total(tracer))
}

/// "Readings give [...] one cell's amount as the count."
fn cell_amount(world: &World, tracer: u32, cell: u32) -> Result<u64, u32> {
    let (tracer, cell) = check_indices(&world.grid, tracer, cell)?;
    Ok(u64::from(world.tracer(tracer)[cell]))
}
