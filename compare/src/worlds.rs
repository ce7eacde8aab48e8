//! Seeded worlds and calls: mostly in range, some at and past the limits, some with lists of a wrong length.

use crate::{books, gases, ledgers, limiters};
use reference::{Call, Grid, World};

pub const MOST: u64 = 268_435_455;

/// xorshift64*, so that a run is the same on every machine.
pub struct Random(u64);

impl Random {
    pub fn new(seed: u64) -> Random {
        Random(seed.wrapping_mul(0x9e37_79b9_7f4a_7c15) | 1)
    }

    pub fn next(&mut self) -> u64 {
        self.0 ^= self.0 >> 12;
        self.0 ^= self.0 << 25;
        self.0 ^= self.0 >> 27;
        self.0.wrapping_mul(0x2545_f491_4f6c_dd1d)
    }

    pub fn below(&mut self, n: u64) -> u64 {
        (self.next() >> 11) % n
    }

    pub fn between(&mut self, low: u64, high: u64) -> u64 {
        low + self.below(high - low + 1)
    }

    pub fn one_in(&mut self, n: u64) -> bool {
        self.below(n) == 0
    }
}

pub fn cells(g: &Grid) -> u64 {
    g.k as u64 * (2 + g.r as u64 * g.w as u64)
}

/// Grids grow with `size` (0 to 3): the smallest first, so that a difference is met in a small one.
pub fn grid(random: &mut Random, size: u32) -> Grid {
    let most = [
        (6, 2, 3, 2),
        (12, 5, 6, 3),
        (36, 12, 12, 8),
        (72, 44, 32, 8),
    ][size as usize];
    let mut g = Grid {
        w: random.between(4, most.0) as u32,
        r: random.between(1, most.1) as u32,
        k: random.between(1, most.2) as u32,
        n: random.between(1, most.3) as u32,
    };
    // Often one row, with a cap on either side of it, and often the most rows.
    match random.below(8) {
        0 => g.r = 1,
        1 => g.r = most.1 as u32,
        _ => {}
    }
    if random.one_in(40) {
        match random.below(4) {
            0 => g.w = [3, 73, 0, u32::MAX][random.below(4) as usize],
            1 => g.r = [0, 45, u32::MAX][random.below(3) as usize],
            2 => g.k = [0, 33, u32::MAX][random.below(3) as usize],
            _ => g.n = [0, 9, u32::MAX][random.below(3) as usize],
        }
    }
    g
}

pub fn in_range(g: &Grid) -> bool {
    (4..=72).contains(&g.w)
        && (1..=44).contains(&g.r)
        && (1..=32).contains(&g.k)
        && (1..=8).contains(&g.n)
}

/// How many cells, and how many tracers, the lists of a world of this grid have; those of a grid that no call takes are short.
pub fn sizes(grid: &Grid) -> (u64, u64) {
    if in_range(grid) {
        (cells(grid), grid.n.into())
    } else {
        (6, 1)
    }
}

/// A world whose ledger is as a load leaves it. The runner's inputs are made from it, and are the same bytes as before the ledger.
pub fn world(random: &mut Random, grid: Grid) -> World {
    let (count, tracers) = sizes(&grid);
    let base = random.between(1, 60_000);
    let mut air: Vec<u32> = (0..count)
        .map(|_| random.between(1 + base / 2, (base + base / 2 + 10).min(65_535)) as u32)
        .collect();
    let ratio = random.below(4);
    let mut amounts = Vec::new();
    for _ in 0..tracers {
        let most = (MOST / count).min(1 + ratio * base);
        for _ in 0..count {
            amounts.push(random.below(most + 1) as u32);
        }
    }
    if random.one_in(30) {
        let i = random.below(count) as usize;
        air[i] = [0, 65_536, u32::MAX, 1, 65_535][random.below(5) as usize];
    }
    if random.one_in(30) {
        let i = random.below(amounts.len() as u64) as usize;
        amounts[i] = [MOST as u32, MOST as u32 + 1, u32::MAX][random.below(3) as usize];
    }
    if random.one_in(60) {
        air.pop();
    }
    if random.one_in(60) {
        amounts.push(0);
    }
    ledgers::after_load(World {
        grid,
        air,
        tracers: amounts,
        ledger: Vec::new(),
    })
}

/// An index of n, now and then absent.
pub fn index(random: &mut Random, n: u64) -> u32 {
    if random.one_in(25) {
        [n, n + 1, u32::MAX as u64][random.below(3) as usize].min(u32::MAX as u64) as u32
    } else {
        random.below(n.max(1)) as u32
    }
}

/// Fluxes round one common value, so that cells keep about the air they have; now and then a wild one.
fn fluxes(random: &mut Random, faces: u64, most: u64, noise: u64, limit: u64) -> Vec<i32> {
    let faces = if random.one_in(50) { faces + 1 } else { faces };
    let common = random.below(2 * most + 1) as i64 - most as i64;
    let wild = random.one_in(8);
    (0..faces)
        .map(|_| match random.below(if wild { 100 } else { 20_000 }) {
            0 => i32::MIN,
            1 => limit as i32,
            2 => -(limit as i32) - 1,
            3..=8 => 0,
            _ => (common + random.below(2 * noise + 1) as i64 - noise as i64)
                .clamp(-(limit as i64), limit as i64) as i32,
        })
        .collect()
}

fn table(random: &mut Random, k: u64) -> Vec<u32> {
    let mut pairs = vec![0, 0];
    for j in 1..k {
        let part = 65_536 * j / k;
        let b = (part + random.below(65_536 / k)) as u32;
        let a = if random.one_in(3) {
            random.below(40) as u32
        } else {
            0
        };
        pairs.push(a);
        pairs.push(b.min(65_536));
    }
    pairs.extend([0, 65_536]);
    if random.one_in(20) {
        let i = random.below(pairs.len() as u64) as usize;
        pairs[i] = [0, 1, 65_537, 2_097_120, 2_097_121][random.below(5) as usize];
    }
    if random.one_in(50) {
        pairs.pop();
    }
    pairs
}

/// The air of a row, or of some row if the world has not that one.
fn row_air(world: &World, layer: u32, row: u32) -> Vec<u32> {
    let g = &world.grid;
    let (w, layer, row) = (g.w as usize, layer as usize, row as usize);
    if !in_range(g) || layer >= g.k as usize || row >= g.r as usize {
        return vec![100; w.min(80)];
    }
    let first = layer * (2 + g.r as usize * w) + 1 + row * w;
    let found = world.air.get(first..first + w);
    found.map_or(vec![100; w], <[u32]>::to_vec)
}

/// Fluxes of a long sweep: the row moved by nothing, by a whole turn, or by nearly one, either way, or by any part of it,
/// with differences that mostly leave air in each cell; now and then one that is refused, or that leaves a cell at its limit.
fn long_fluxes(random: &mut Random, air: &[u32]) -> Vec<i32> {
    let turn: i64 = air.iter().map(|&m| i64::from(m)).sum();
    let least = air.iter().copied().min().map_or(1, u64::from);
    let nearly = turn - random.below(least + 1) as i64;
    let any = random.below(2 * turn as u64 + 1) as i64 - turn;
    let common = [0, turn, -turn, nearly, -nearly, any, any, any][random.below(8) as usize];
    let noise = [0, 0, 1, least / 2, least, 2 * least][random.below(6) as usize] as i64;
    let mut fluxes: Vec<i64> = air
        .iter()
        .map(|_| common + random.below(2 * noise as u64 + 1) as i64 - noise)
        .map(|flux| flux.clamp(-turn, turn))
        .collect();
    if !air.is_empty() {
        long_exception(random, air, turn, &mut fluxes);
    }
    fluxes
        .iter()
        .map(|&f| f.clamp(i64::from(i32::MIN), i64::from(i32::MAX)) as i32)
        .collect()
}

/// In a part of the long sweeps: a cell that ends at a limit or one beyond it; one flux, or all, above what is allowed; no
/// flux; a list too long.
fn long_exception(random: &mut Random, air: &[u32], turn: i64, fluxes: &mut Vec<i64>) {
    let i = random.below(air.len() as u64) as usize;
    let sign = if random.one_in(2) { 1 } else { -1 };
    match random.below(16) {
        0..=2 => {
            let end = [1, 0, 65_535, 65_536][random.below(4) as usize];
            let west = fluxes[if i == 0 { air.len() - 1 } else { i - 1 }];
            fluxes[i] = i64::from(air[i]) + west - end;
        }
        3 => fluxes[i] = sign * (turn + 1),
        4 => fluxes[i] = sign * [1_048_560, 1_048_561, 1 << 31][random.below(3) as usize],
        5 => fluxes.fill(sign * (turn + 1)),
        6 => fluxes.fill(0),
        7 if random.one_in(3) => fluxes.push(0),
        _ => {}
    }
}

/// A world with any ledger, and often with a thin gas or a packed cell.
pub fn world_with_ledger(random: &mut Random, grid: Grid) -> World {
    let mut world = world(random, grid);
    ledgers::lend(random, &mut world);
    gases::lend(random, &mut world);
    limiters::lend(random, &mut world);
    books::lend(random, &mut world);
    world
}

/// The next call of a list. Now and then a number of the world is changed before it.
pub fn next_call(random: &mut Random, world: &mut World) -> Call {
    books::meddle(random, world);
    call(random, world)
}

/// Any call of the library. Where a book is broken, a load comes sooner.
fn call(random: &mut Random, world: &World) -> Call {
    if !books::all_balance(world) && random.one_in(24) {
        return Call::Load;
    }
    match random.below(13) {
        0 | 1 => long_call(random, world),
        2..=4 => ledgers::call(random, world),
        5 if random.one_in(2) => remap_at_old_edges(random, world),
        6 => press(random, world),
        7 => limiters::call(random, world),
        8 => books::call(random, world),
        _ => recorded_call(random, world),
    }
}

/// Fluxes of a zonal sweep in a world whose air is about so much.
fn zonal_fluxes(random: &mut Random, world: &World, typical: u64) -> Vec<i32> {
    let most = typical * random.below(8);
    let noise = typical / random.between(3, 30);
    fluxes(
        random,
        u64::from(world.grid.w).min(80),
        most,
        noise,
        1_048_560,
    )
}

/// A count before the sweep, or a sweep with a given count: the right one, one beside it, a larger one, 0, 16, 17 or 2^32 − 1. Half of them have one
/// flux through all faces, so that every count is met; one in 16 has a flux that is too large.
fn press(random: &mut Random, world: &World) -> Call {
    let (layer, row) = (
        index(random, world.grid.k.into()),
        index(random, world.grid.r.into()),
    );
    let air = row_air(world, layer, row);
    let least = air.iter().copied().min().map_or(1, u64::from).max(1);
    let mut fluxes = if random.one_in(2) {
        vec![(least * random.between(1, 17)).min(1_048_560) as i32; air.len()]
    } else {
        zonal_fluxes(random, world, least.min(65_535))
    };
    if random.one_in(16) {
        let too_large = [1_048_561, -1_048_561, i32::MIN][random.below(3) as usize];
        fluxes.iter_mut().take(1).for_each(|flux| *flux = too_large);
    }
    if random.one_in(3) {
        return Call::CountZonal { layer, row, fluxes };
    }
    let count = Call::CountZonal {
        layer,
        row,
        fluxes: fluxes.clone(),
    };
    // Where a limiter or a book is broken, the count that the row has without it.
    let mut sound = books::mended(&limiters::with_first(world));
    let right = reference::call(&mut sound, &count).count as u32;
    let given = match random.below(8) {
        0 => right.wrapping_sub(1),
        1 => right + 1,
        2 => right + random.between(2, 5) as u32,
        3 => [0, 16, 17, u32::MAX][random.below(4) as usize],
        _ => right,
    };
    Call::ZonalWithCount {
        layer,
        row,
        given,
        fluxes,
    }
}

/// A remap to the edges of one column, often a cap's, each now and then one unit off.
fn remap_at_old_edges(random: &mut Random, world: &World) -> Call {
    let g = &world.grid;
    let (places, layers) = (
        2 + u64::from(g.r) * u64::from(g.w),
        u64::from(g.k).clamp(1, 40),
    );
    let place = [0, places - 1, random.below(places)][random.below(3) as usize] as usize;
    let mut edge = 0;
    let mut table = vec![0, 0];
    for layer in 1..layers as usize {
        let cell = place + (layer - 1) * places as usize;
        edge += u64::from(world.air.get(cell).copied().unwrap_or(1));
        let off = if random.one_in(6) { random.below(3) } else { 1 };
        table.extend([(edge + off).saturating_sub(1).min(2_097_120) as u32, 0]);
    }
    table.extend([0, 65_536]);
    Call::Remap { table }
}

fn long_call(random: &mut Random, world: &World) -> Call {
    let layer = index(random, world.grid.k as u64);
    let row = index(random, world.grid.r as u64);
    let fluxes = long_fluxes(random, &row_air(world, layer, row));
    Call::LongZonal { layer, row, fluxes }
}

/// A call that is a record of the runner program too.
pub fn recorded_call(random: &mut Random, world: &World) -> Call {
    let g = &world.grid;
    let (w, r, k, n) = (g.w as u64, g.r as u64, g.k as u64, g.n as u64);
    let (all, _) = sizes(g);
    let typical = world
        .air
        .first()
        .map_or(100, |m| (*m as u64).clamp(1, 65_535));
    match random.below(12) {
        0 => Call::Load,
        1 => Call::Total {
            tracer: index(random, n),
        },
        2 => Call::Cell {
            tracer: index(random, n),
            cell: index(random, all),
        },
        3 | 4 => {
            let amount = [random.below(1000), random.below(MOST + 2), u32::MAX as u64]
                [random.below(3) as usize];
            Call::Emission {
                tracer: index(random, n),
                cell: index(random, all),
                amount: amount as u32,
            }
        }
        5 => {
            let tracer = index(random, n);
            let cell = index(random, all);
            let had = world
                .tracers
                .get((tracer as u64 * all + cell as u64).min(u32::MAX as u64) as usize);
            let amount = had.map_or(1, |x| random.below(*x as u64 + 2));
            Call::Withdrawal {
                tracer,
                cell,
                amount: amount as u32,
            }
        }
        6..=8 => {
            let most = typical * random.below(8);
            let noise = typical / random.between(3, 30);
            Call::Zonal {
                layer: index(random, k),
                row: index(random, r),
                fluxes: fluxes(random, w.min(80), most, noise, 1_048_560),
            }
        }
        9 | 10 => {
            let most = typical / random.between(2, 40);
            let noise = typical / random.between(10, 80);
            Call::Meridional {
                layer: index(random, k),
                fluxes: fluxes(
                    random,
                    (w * (r + 1)).min(5000),
                    most / w.max(1),
                    noise,
                    65_535,
                ),
            }
        }
        _ => Call::Remap {
            table: table(random, k.clamp(1, 40)),
        },
    }
}
