//! The program of again.c in Rust, kept unchanged from the first version on.

use puldeho::{Grid, Refusal, World};

/// Emits, sweeps and withdraws.
fn step(world: &mut World, when: &str) -> Result<(), Refusal> {
    world.emission(0, 5, 1000)?;
    world.zonal(0, 0, &[0, 20, 0, -10])?;
    world.withdrawal(0, 5, 7)?;
    let air: String = world.air().iter().map(|units| format!(" {units}")).collect();
    println!("{when}: total {}, air{air}", world.total(0)?);
    Ok(())
}

fn main() -> Result<(), Refusal> {
    let grid = Grid { w: 4, r: 1, k: 1, n: 1 };
    let mut world = World::load(grid, [100; 6], [0, 10, 20, 30, 40, 50])?;
    let saved = world.clone();
    step(&mut world, "a step")?;
    step(&mut world, "a second")?;
    world = saved.clone();
    step(&mut world, "from the kept state")?;
    let mut tracers = world.tracers().to_vec();
    tracers[1] += 300;
    let mut world = World::load(world.grid(), world.air(), tracers)?;
    step(&mut world, "loaded again")?;
    println!("kept: {}", saved.cell(0, 5)?);
    match world.withdrawal(0, 5, 1_000_000) {
        Err(Refusal::Withdrawal) => Ok(()),
        Err(other) => Err(other),
        Ok(()) => unreachable!("the cell has less"),
    }
}
