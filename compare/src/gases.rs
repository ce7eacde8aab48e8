//! Gases at the two ends of what the scale must carry: thin ones, of a few units in a thousand of air, and one cell that has the
//! most air and nearly all units that a tracer may have.

use crate::worlds::{Random, MOST};
use reference::World;

/// One to three units in a thousand of the air, and up to two units more.
fn thin(random: &mut Random, air: &[u32], gas: &mut [u32]) {
    let share = random.between(1, 3) as u32;
    for (t, m) in gas.iter_mut().zip(air) {
        *t = m / 1_000 * share + random.below(3) as u32;
    }
}

/// Up to three units everywhere, and in one cell all but a few of what the total may have.
fn packed(random: &mut Random, air: &mut [u32], gas: &mut [u32]) {
    gas.fill_with(|| random.below(4) as u32);
    let cell = random.below(gas.len() as u64) as usize;
    gas[cell] = 0;
    let others: u64 = gas.iter().map(|&t| u64::from(t)).sum();
    gas[cell] = (MOST - others - random.below(3)) as u32;
    air[cell] = 65_535 - random.below(2) as u32;
}

/// Makes one tracer in some worlds thin, or packs it into one cell. A world whose lists have wrong lengths stays.
pub fn lend(random: &mut Random, world: &mut World) {
    let (n, cells) = (world.grid.n as usize, world.air.len());
    let whole = cells > 0 && (1..=8).contains(&n) && world.tracers.len() == n * cells;
    let kind = random.below(6);
    if !whole || kind > 2 {
        return;
    }
    let t = random.below(n as u64) as usize;
    let gas = &mut world.tracers[t * cells..(t + 1) * cells];
    match kind {
        0 => packed(random, &mut world.air, gas),
        _ => thin(random, &world.air, gas),
    }
}
