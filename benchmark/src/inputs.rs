//! Worlds, winds and tables that look like a day's: air that varies by layer and place, eight kinds of gas, zonal
//! winds that need 1 to 3 substeps, long ones of several cells, weak meridional winds, tables whose edges lie inside the old layers.

use crate::ledgers::{after_load, BLOCK, EMITTERS};
use crate::limiters::{self, Limiter};
use crate::plain::TABLE_SCALE;
use crate::worlds::Random;
use reference::{Call, Grid, World};
use std::f64::consts::TAU;

/// The air of a cell, before noise: about 15,000 to 25,000, thinner at the top, waves round the globe.
fn base_air(grid: &Grid, layer: u32, cell: u32) -> f64 {
    let depth = 15_000.0 + 8_000.0 * f64::from(layer + 1) / f64::from(grid.k);
    let column = cell.saturating_sub(1) % grid.w;
    depth * (1.0 + 0.05 * (3.0 * TAU * f64::from(column) / f64::from(grid.w)).sin())
}

/// The amount of a gas in a cell: smooth, noisy, a front, or a plume with large amounts and nothing outside of it.
fn amount(random: &mut Random, kind: u32, grid: &Grid, cell: u32) -> u32 {
    let place = cell.saturating_sub(1);
    let (row, column) = (place / grid.w, place % grid.w);
    let noise = random.below(200) as f64;
    let north = f64::from(row) / f64::from(grid.r);
    let round = TAU * f64::from(column) / f64::from(grid.w);
    match kind % 4 {
        0 => (1_800.0 * (1.0 + 0.5 * round.cos() * north) + noise) as u32,
        1 => random.below(4_000) as u32,
        2 => (noise + if north > 0.5 { 3_500.0 } else { 10.0 }) as u32,
        _ if 6 * column < grid.w && 4 * row < grid.r => random.below(100_000) as u32,
        _ => 0,
    }
}

pub fn world(random: &mut Random, grid: Grid) -> World {
    let layer = 2 + grid.r * grid.w;
    let noisy =
        |random: &mut Random, air: f64| (air * (0.97 + random.below(600) as f64 / 10_000.0)) as u32;
    let places = || (0..grid.k).flat_map(|k| (0..layer).map(move |c| (k, c)));
    let air = places()
        .map(|(k, c)| noisy(random, base_air(&grid, k, c)))
        .collect();
    let tracers = (0..grid.n)
        .flat_map(|t| places().map(move |(_, c)| (t, c)))
        .map(|(t, c)| amount(random, t, &grid, c))
        .collect();
    after_load(World {
        grid,
        air,
        tracers,
        ledger: Vec::new(),
    })
}

/// Lets so many emitters of 1 to 3 units stand for each tracer, in cells all over the grid, with ids 0, 1, 2, ..
pub fn let_stand(world: &mut World, standing: usize) {
    let cells = world.air.len();
    for block in world.ledger.chunks_exact_mut(BLOCK) {
        let block = &mut block[..EMITTERS];
        for (i, emitter) in block[3..].chunks_exact_mut(3).take(standing).enumerate() {
            let place = (2 * i + 1) * cells / 32;
            emitter.copy_from_slice(&[i as u32, place as u32, 1 + i as u32 % 3]);
        }
        block[0] = standing as u32;
        block[1] = block[3..].chunks_exact(3).map(|emitter| emitter[2]).sum();
    }
}

/// The world with this limiter for every tracer. The bounds of the fixed one are the tracer's least and greatest ratio, or, for every
/// other tracer, those between which half of its cells lie.
pub fn limited(world: &World, number: u32) -> World {
    let cells = world.air.len();
    let ratio = |(&t, &m): (&u32, &u32)| (u64::from(t) << 18) / u64::from(m);
    let mut gases = world.tracers.chunks_exact(cells).enumerate();
    limiters::changed(world, |_| {
        let (t, gas) = gases.next().expect("a limiter for each tracer");
        let mut ratios: Vec<u64> = gas.iter().zip(&world.air).map(ratio).collect();
        ratios.sort_unstable();
        let outside = if t % 2 == 0 { 0 } else { cells / 4 };
        let (lo, hi) = (ratios[outside], ratios[cells - 1 - outside]);
        Limiter { number, lo, hi }
    })
}

/// Fluxes of a row that pass about `share` of its cells' air, with waves and noise; one in 24 is 0 if the wind is weak.
pub fn zonal(random: &mut Random, world: &World, layer: u32, row: u32, share: f64) -> Call {
    let grid = &world.grid;
    let direction = if random.one_in(2) { 1.0 } else { -1.0 };
    let waves = 1.0 + random.below(4) as f64;
    let flux = |i: u32, random: &mut Random| {
        let wave = 1.0 + 0.15 * (waves * TAU * f64::from(i) / f64::from(grid.w)).sin();
        let noise = 0.99 + random.below(200) as f64 / 10_000.0;
        let still = share < 0.3 && random.one_in(24);
        let size = if still { 0.0 } else { share * wave * noise };
        (direction * size * base_air(grid, layer, 1)) as i32
    };
    let fluxes = (0..grid.w).map(|i| flux(i, random)).collect();
    Call::Zonal { layer, row, fluxes }
}

/// Fluxes of a row that move it by about `cells` cells, with waves and noise of up to a tenth of a cell.
pub fn long_zonal(random: &mut Random, world: &World, layer: u32, row: u32, cells: f64) -> Call {
    let grid = &world.grid;
    let direction = if random.one_in(2) { 1.0 } else { -1.0 };
    let waves = 1.0 + random.below(4) as f64;
    let flux = |i: u32, random: &mut Random| {
        let wave = 0.1 * (waves * TAU * f64::from(i) / f64::from(grid.w)).sin();
        let noise = random.below(200) as f64 / 10_000.0;
        (direction * (cells + wave + noise) * base_air(grid, layer, 1)) as i32
    };
    let fluxes = (0..grid.w).map(|i| flux(i, random)).collect();
    Call::LongZonal { layer, row, fluxes }
}

/// A layer's meridional fluxes: weak at the caps, up to a fifth of a cell's air between them, both directions.
pub fn meridional(random: &mut Random, world: &World, layer: u32) -> Call {
    let grid = &world.grid;
    let flux = |random: &mut Random, g: u32, i: u32| {
        let north = f64::from(g) / f64::from(grid.r);
        let middle = (north * TAU / 2.0).sin();
        let wave = (2.0 * TAU * f64::from(i) / f64::from(grid.w)).sin();
        let cap = 0.2 / f64::from(grid.w);
        let share = cap + (0.2 - cap) * middle;
        let noise = random.below(200) as f64 / 10_000.0 - 0.01;
        ((wave * share + noise * middle) * base_air(grid, layer, 1)) as i32
    };
    let faces = (0..=grid.r).flat_map(|g| (0..grid.w).map(move |i| (g, i)));
    let fluxes = faces.map(|(g, i)| flux(random, g, i)).collect();
    Call::Meridional { layer, fluxes }
}

/// The same flows back.
pub fn opposite(call: &Call) -> Call {
    let back = |fluxes: &[i32]| fluxes.iter().map(|f| -f).collect();
    match call {
        Call::Zonal { layer, row, fluxes } => Call::Zonal {
            layer: *layer,
            row: *row,
            fluxes: back(fluxes),
        },
        Call::LongZonal { layer, row, fluxes } => Call::LongZonal {
            layer: *layer,
            row: *row,
            fluxes: back(fluxes),
        },
        Call::Meridional { layer, fluxes } => Call::Meridional {
            layer: *layer,
            fluxes: back(fluxes),
        },
        other => other.clone(),
    }
}

/// The count before a zonal sweep.
pub fn count_before(call: &Call) -> Call {
    match call {
        Call::Zonal { layer, row, fluxes } => Call::CountZonal {
            layer: *layer,
            row: *row,
            fluxes: fluxes.clone(),
        },
        other => other.clone(),
    }
}

/// A zonal sweep with the count that it has in this world.
pub fn with_count(world: &World, call: &Call) -> Call {
    let counted = reference::call(&mut world.clone(), &count_before(call));
    match call {
        Call::Zonal { layer, row, fluxes } => Call::ZonalWithCount {
            layer: *layer,
            row: *row,
            given: counted.count as u32,
            fluxes: fluxes.clone(),
        },
        other => other.clone(),
    }
}

/// Edges near equal parts of a column's air, each moved by less than a third of a part.
pub fn table(random: &mut Random, k: u32) -> Call {
    let part = u64::from(TABLE_SCALE / k);
    let mut table = vec![0, 0];
    for j in 1..u64::from(k) {
        let b = u64::from(TABLE_SCALE) * j / u64::from(k) + random.below(part / 3 + 1) - part / 6;
        table.extend([random.below(500) as u32, b as u32]);
    }
    table.extend([0, TABLE_SCALE]);
    Call::Remap { table }
}

/// The day's calls on one layer: every row with its own wind, then the layer.
pub fn layer_of_day(random: &mut Random, world: &World, layer: u32) -> Vec<Call> {
    let rows = world.grid.r;
    let mut calls: Vec<Call> = (0..rows)
        .map(|row| {
            let share = 0.1 + random.below(200) as f64 / 100.0;
            zonal(random, world, layer, row, share)
        })
        .collect();
    calls.push(meridional(random, world, layer));
    calls
}
