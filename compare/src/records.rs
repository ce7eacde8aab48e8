//! Records of the runner's input: "one byte of kind, then a body whose length the kind and the grid fix."

use reference::{Call, Grid, World};

/// "1 grid: W, R, K, N, a byte each."
pub fn grid(g: &Grid) -> Vec<u8> {
    vec![1, g.w as u8, g.r as u8, g.k as u8, g.n as u8]
}

/// "2 load: all air, then all tracers, 4 bytes each."
pub fn load(world: &World) -> Vec<u8> {
    [vec![2], unsigned(&world.air), unsigned(&world.tracers)].concat()
}

/// Kinds 3 to 9; the call's numbers and lists fit its record.
pub fn call(asked: &Call) -> Vec<u8> {
    match asked {
        Call::Load => unreachable!("a load's record has the world's numbers"),
        Call::Emission {
            tracer,
            cell,
            amount,
        } => change(3, *tracer, *cell, *amount),
        Call::Withdrawal {
            tracer,
            cell,
            amount,
        } => change(4, *tracer, *cell, *amount),
        Call::Zonal { layer, row, fluxes } => {
            [vec![5, *layer as u8, *row as u8], signed(fluxes)].concat()
        }
        Call::Meridional { layer, fluxes } => [vec![6, *layer as u8], signed(fluxes)].concat(),
        Call::Remap { table } => [vec![7], unsigned(table)].concat(),
        Call::Total { tracer } => vec![8, *tracer as u8],
        Call::Cell { tracer, cell } => [vec![9, *tracer as u8], two_bytes(*cell)].concat(),
        _ => unreachable!("{asked:?} has no record"),
    }
}

/// The call with numbers and lists that fit its record: an index has one or two bytes, and a list has
/// the grid's length.
pub fn fitted(mut asked: Call, g: &Grid) -> Call {
    match &mut asked {
        Call::Emission { tracer, cell, .. }
        | Call::Withdrawal { tracer, cell, .. }
        | Call::Cell { tracer, cell } => {
            *tracer = (*tracer).min(255);
            *cell = (*cell).min(65_535);
        }
        Call::Zonal { layer, row, fluxes } => {
            *layer = (*layer).min(255);
            *row = (*row).min(255);
            fluxes.resize(g.w as usize, 0);
        }
        Call::Meridional { layer, fluxes } => {
            *layer = (*layer).min(255);
            fluxes.resize((g.w * (g.r + 1)) as usize, 0);
        }
        Call::Remap { table } => table.resize(2 * (g.k as usize + 1), 0),
        Call::Total { tracer } => *tracer = (*tracer).min(255),
        _ => {}
    }
    asked
}

/// "3 emission and 4 withdrawal: tracer 1 byte, cell over all layers 2 bytes, amount 4."
fn change(kind: u8, tracer: u32, cell: u32, amount: u32) -> Vec<u8> {
    [
        vec![kind, tracer as u8],
        two_bytes(cell),
        unsigned(&[amount]),
    ]
    .concat()
}

fn two_bytes(number: u32) -> Vec<u8> {
    (number as u16).to_le_bytes().to_vec()
}

fn unsigned(numbers: &[u32]) -> Vec<u8> {
    numbers.iter().flat_map(|n| n.to_le_bytes()).collect()
}

fn signed(numbers: &[i32]) -> Vec<u8> {
    numbers.iter().flat_map(|n| n.to_le_bytes()).collect()
}
