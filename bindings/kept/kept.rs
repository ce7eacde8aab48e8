//! The program of kept.c in Rust, kept unchanged from the first version on.

use puldeho::{Grid, Refusal, World};

/// Every call once, accepted.
fn make_calls(world: &mut World) -> Result<(), Refusal> {
    let grid = world.grid();
    world.emission(1, grid.cell_number(1, 1, 3).unwrap(), 1000)?;
    println!("emission: accepted");
    world.withdrawal(1, grid.south_cap(1).unwrap(), 20)?;
    println!("withdrawal: accepted");
    let substeps = world.zonal(0, 1, &[150, 160, 140, 155])?;
    println!("zonal: accepted\nsubsteps: {substeps}");
    let substeps = world.meridional(1, &[5, -4, 3, 2, 10, 9, -8, 7, -6, 5, 4, -3])?;
    println!("meridional: accepted\nsubsteps: {substeps}");
    let pairs = world.remap(&[0, 0, 0, 32768, 0, 65536])?;
    println!("remap: accepted\npairs: {pairs}");
    println!("total: accepted\nunits: {}", world.total(1)?);
    let cap = grid.north_cap(1).unwrap();
    println!("cell: accepted\nunits: {}", world.cell(0, cap)?);
    Ok(())
}

/// The number of a refusal; a call that is accepted ends the program.
fn refused<T: std::fmt::Debug>(result: Result<T, Refusal>) -> u32 {
    result.unwrap_err() as u32
}

/// Calls that are refused.
fn make_refused_calls(world: &mut World) {
    println!("an absent cell: {}", refused(world.emission(0, 20, 1)));
    println!("more than a cell has: {}", refused(world.withdrawal(0, 0, 4_000_000)));
    println!("three fluxes: {}", refused(world.zonal(0, 0, &[0, 1000, 0])));
    println!("a flux too large: {}", refused(world.zonal(0, 0, &[0, 1_048_561, 0, 0])));
    println!("a cell would empty: {}, substeps 0", refused(world.zonal(0, 0, &[0, 1000, 0, 0])));
}

fn print_list(name: &str, list: &[u32]) {
    let numbers: String = list.iter().map(|number| format!(" {number}")).collect();
    println!("{name}:{numbers}");
}

fn main() -> Result<(), Refusal> {
    let grid = Grid { w: 4, r: 2, k: 2, n: 2 };
    let cells = grid.air_length();
    let air: Vec<u32> = (0..cells as u32).map(|i| 100 + i % 7).collect();
    let thrice = air.iter().map(|units| 3 * units);
    let tracers: Vec<u32> = thrice.chain((0..cells as u32).map(|i| i * 37 % 500)).collect();
    println!("cells: {cells}, amounts: {}", grid.tracers_length());
    let mut world = World::load(grid, air, tracers)?;
    println!("load: accepted");
    make_calls(&mut world)?;
    make_refused_calls(&mut world);
    print_list("air", world.air());
    print_list("gas 0, three units to each of air", &world.tracers()[..cells]);
    Ok(())
}
