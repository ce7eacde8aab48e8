//! "Show the count before the sweep": document 02's two calls for the zonal sweep. "Made one after
//! the other with the same layer, row and fluxes, the first's count given to the second and no call
//! between, they leave what the single sweep leaves, and both give its answer and count." So each
//! tests what the single sweep tests (zonal.rs), in its order.

use crate::grid::World;
use crate::{refusal, zonal};

/// "Add a call that gives the count and writes nothing".
pub fn count(world: &World, layer: u32, row: u32, fluxes: &[i32]) -> Result<u64, u32> {
    let ready = zonal::ready(world, layer, row, fluxes)?;
    Ok(u64::from(ready.smallest))
}

/// "and a second that carries the sweep out with a count given to it." "20 when the given count
/// differs from the smallest that serves, tested after 9 in the second call."
pub fn sweep_with_count(
    world: &mut World,
    layer: u32,
    row: u32,
    given: u32,
    fluxes: &[i32],
) -> Result<u64, u32> {
    let ready = zonal::ready(world, layer, row, fluxes)?;
    if given != ready.smallest {
        return Err(refusal::COUNT);
    }
    zonal::carry_out(world, &ready, given);
    Ok(u64::from(given))
}
