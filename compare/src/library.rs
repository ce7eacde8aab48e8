// Made by tools/bindings from the tables of bindings/: not to be edited.
//! The second implementation's calls, made in the library and written as lines of a script.

use puldeho::{raw, Grid, Refusal};
use reference::{Call, World};

/// Makes the call in the library.
pub fn call(world: &mut World, call: &Call) -> Result<u64, Refusal> {
    let World { grid, air, tracers, ledger } = world;
    let grid = Grid { w: grid.w, r: grid.r, k: grid.k, n: grid.n };
    match call {
        Call::Load => {
            raw::load(grid, air, tracers, ledger).map(u64::from)
        }
        Call::Emission { tracer, cell, amount } => {
            raw::emission(grid, air, tracers, ledger, *tracer, *cell, *amount).map(u64::from)
        }
        Call::Withdrawal { tracer, cell, amount } => {
            raw::withdrawal(grid, air, tracers, ledger, *tracer, *cell, *amount).map(u64::from)
        }
        Call::Zonal { layer, row, fluxes } => {
            raw::zonal(grid, air, tracers, ledger, *layer, *row, fluxes).map(u64::from)
        }
        Call::CountZonal { layer, row, fluxes } => {
            raw::count_zonal(grid, air, tracers, ledger, *layer, *row, fluxes).map(u64::from)
        }
        Call::ZonalWithCount { layer, row, given, fluxes } => {
            raw::zonal_with_count(grid, air, tracers, ledger, *layer, *row, *given, fluxes).map(u64::from)
        }
        Call::LongZonal { layer, row, fluxes } => {
            raw::long_zonal(grid, air, tracers, ledger, *layer, *row, fluxes).map(u64::from)
        }
        Call::Meridional { layer, fluxes } => {
            raw::meridional(grid, air, tracers, ledger, *layer, fluxes).map(u64::from)
        }
        Call::Remap { table } => {
            raw::remap(grid, air, tracers, ledger, table).map(u64::from)
        }
        Call::Total { tracer } => {
            raw::total(grid, air, tracers, ledger, *tracer).map(u64::from)
        }
        Call::Cell { tracer, cell } => {
            raw::cell(grid, air, tracers, ledger, *tracer, *cell).map(u64::from)
        }
        Call::AddEmitter { tracer, cell, id, units } => {
            raw::add_emitter(grid, air, tracers, ledger, *tracer, *cell, *id, *units).map(u64::from)
        }
        Call::RemoveEmitter { tracer, id } => {
            raw::remove_emitter(grid, air, tracers, ledger, *tracer, *id).map(u64::from)
        }
        Call::Tick { tracer } => {
            raw::tick(grid, air, tracers, ledger, *tracer).map(u64::from)
        }
        Call::UnitsATick { tracer } => {
            raw::units_a_tick(grid, air, tracers, ledger, *tracer)
        }
        Call::SetLimiter { tracer, limiter, lo, hi } => {
            raw::set_limiter(grid, air, tracers, ledger, *tracer, *limiter, *lo, *hi).map(u64::from)
        }
    }
}

/// The call's name.
pub fn name(call: &Call) -> &'static str {
    match call {
        Call::Load { .. } => "load",
        Call::Emission { .. } => "emission",
        Call::Withdrawal { .. } => "withdrawal",
        Call::Zonal { .. } => "zonal",
        Call::CountZonal { .. } => "count_zonal",
        Call::ZonalWithCount { .. } => "zonal_with_count",
        Call::LongZonal { .. } => "long_zonal",
        Call::Meridional { .. } => "meridional",
        Call::Remap { .. } => "remap",
        Call::Total { .. } => "total",
        Call::Cell { .. } => "cell",
        Call::AddEmitter { .. } => "add_emitter",
        Call::RemoveEmitter { .. } => "remove_emitter",
        Call::Tick { .. } => "tick",
        Call::UnitsATick { .. } => "units_a_tick",
        Call::SetLimiter { .. } => "set_limiter",
    }
}

/// The refusals that the table names for the call.
pub fn refusals(call: &Call) -> &'static [u32] {
    match call {
        Call::Load { .. } => &[1, 2, 3, 4],
        Call::Emission { .. } => &[1, 2, 3, 4, 22, 5, 6],
        Call::Withdrawal { .. } => &[1, 2, 3, 4, 22, 5, 7],
        Call::Zonal { .. } => &[1, 2, 3, 4, 21, 22, 5, 8, 9],
        Call::CountZonal { .. } => &[1, 2, 3, 4, 21, 22, 5, 8, 9],
        Call::ZonalWithCount { .. } => &[1, 2, 3, 4, 21, 22, 5, 8, 9, 20],
        Call::LongZonal { .. } => &[1, 2, 3, 4, 21, 22, 5, 8, 16, 17],
        Call::Meridional { .. } => &[1, 2, 3, 4, 21, 22, 5, 8, 10],
        Call::Remap { .. } => &[1, 2, 3, 4, 21, 22, 11, 12],
        Call::Total { .. } => &[1, 2, 3, 4, 22, 5],
        Call::Cell { .. } => &[1, 2, 3, 4, 22, 5],
        Call::AddEmitter { .. } => &[1, 2, 3, 4, 22, 5, 18],
        Call::RemoveEmitter { .. } => &[1, 2, 3, 4, 22, 5, 19],
        Call::Tick { .. } => &[1, 2, 3, 4, 22, 5, 6],
        Call::UnitsATick { .. } => &[1, 2, 3, 4, 22, 5],
        Call::SetLimiter { .. } => &[1, 2, 3, 4, 22, 5, 21],
    }
}

/// Every call's name, with the refusals that the table names for it.
pub const TABLE: &[(&str, &[u32])] = &[
    ("load", &[1, 2, 3, 4]),
    ("emission", &[1, 2, 3, 4, 22, 5, 6]),
    ("withdrawal", &[1, 2, 3, 4, 22, 5, 7]),
    ("zonal", &[1, 2, 3, 4, 21, 22, 5, 8, 9]),
    ("count_zonal", &[1, 2, 3, 4, 21, 22, 5, 8, 9]),
    ("zonal_with_count", &[1, 2, 3, 4, 21, 22, 5, 8, 9, 20]),
    ("long_zonal", &[1, 2, 3, 4, 21, 22, 5, 8, 16, 17]),
    ("meridional", &[1, 2, 3, 4, 21, 22, 5, 8, 10]),
    ("remap", &[1, 2, 3, 4, 21, 22, 11, 12]),
    ("total", &[1, 2, 3, 4, 22, 5]),
    ("cell", &[1, 2, 3, 4, 22, 5]),
    ("add_emitter", &[1, 2, 3, 4, 22, 5, 18]),
    ("remove_emitter", &[1, 2, 3, 4, 22, 5, 19]),
    ("tick", &[1, 2, 3, 4, 22, 5, 6]),
    ("units_a_tick", &[1, 2, 3, 4, 22, 5]),
    ("set_limiter", &[1, 2, 3, 4, 22, 5, 21]),
];

/// The call as a line of a script.
pub fn line(call: &Call) -> String {
    match call {
        Call::Load => format!("load"),
        Call::Emission { tracer, cell, amount } => format!("emission {tracer} {cell} {amount}"),
        Call::Withdrawal { tracer, cell, amount } => format!("withdrawal {tracer} {cell} {amount}"),
        Call::Zonal { layer, row, fluxes } => format!("zonal {layer} {row}{}", numbers(fluxes)),
        Call::CountZonal { layer, row, fluxes } => format!("count_zonal {layer} {row}{}", numbers(fluxes)),
        Call::ZonalWithCount { layer, row, given, fluxes } => format!("zonal_with_count {layer} {row} {given}{}", numbers(fluxes)),
        Call::LongZonal { layer, row, fluxes } => format!("long_zonal {layer} {row}{}", numbers(fluxes)),
        Call::Meridional { layer, fluxes } => format!("meridional {layer}{}", numbers(fluxes)),
        Call::Remap { table } => format!("remap{}", numbers(table)),
        Call::Total { tracer } => format!("total {tracer}"),
        Call::Cell { tracer, cell } => format!("cell {tracer} {cell}"),
        Call::AddEmitter { tracer, cell, id, units } => format!("add_emitter {tracer} {cell} {id} {units}"),
        Call::RemoveEmitter { tracer, id } => format!("remove_emitter {tracer} {id}"),
        Call::Tick { tracer } => format!("tick {tracer}"),
        Call::UnitsATick { tracer } => format!("units_a_tick {tracer}"),
        Call::SetLimiter { tracer, limiter, lo, hi } => format!("set_limiter {tracer} {limiter} {lo} {hi}"),
    }
}

/// Each number with a space before it.
pub fn numbers<T: std::fmt::Display>(list: &[T]) -> String {
    list.iter().map(|number| format!(" {number}")).collect()
}
