//! Helpers of the tests: a generator of numbers, worlds, calls, table rows and columns.
#![allow(dead_code)]

pub mod books;
pub mod limits;
pub mod range;

pub use books::balance;
use limits::{random_limits, Limits};
use reference::{call, Answer, Call, Grid, World};

pub const MOST_TRACER: u64 = 268_435_455;

pub fn grid(w: u32, r: u32, k: u32, n: u32) -> Grid {
    Grid { w, r, k, n }
}

/// C.
pub fn layer_cells(grid: &Grid) -> usize {
    (2 + grid.r * grid.w) as usize
}

/// K·C.
pub fn cells(grid: &Grid) -> usize {
    grid.k as usize * layer_cells(grid)
}

/// A tracer's numbers in the ledger.
pub const BLOCK: usize = 59;

/// A world with the ledger of a load: no emitter stands, each tracer has the first limiter, and its
/// books have its total as loaded.
pub fn world_of(grid: Grid, air: Vec<u32>, tracers: Vec<u32>) -> World {
    let mut block = [0; BLOCK];
    block[51] = 1;
    let mut world = World {
        grid,
        air,
        tracers,
        ledger: block.repeat(grid.n as usize),
    };
    balance(&mut world);
    world
}

/// A world with the same air in all cells and no tracer.
pub fn even_world(grid: Grid, air: u32) -> World {
    let cells = cells(&grid);
    world_of(grid, vec![air; cells], vec![0; grid.n as usize * cells])
}

/// The world of the marked cases: grid 4, 1, 1, 1, caps with air 100 and tracer 0.
pub fn row_world(air: [u32; 4], tracer: [u32; 4]) -> World {
    let caps = |row: [u32; 4], cap: u32| [&[cap][..], &row[..], &[cap][..]].concat();
    world_of(grid(4, 1, 1, 1), caps(air, 100), caps(tracer, 0))
}

/// The row of m1 to m5, and of the numbers of the long sweep's request.
pub fn row_of_four() -> World {
    row_world([100; 4], [0, 100, 200, 100])
}

pub fn accepted(count: u64) -> Answer {
    Answer { number: 0, count }
}

pub fn refused(number: u32) -> Answer {
    Answer { number, count: 0 }
}

pub fn zonal(layer: u32, row: u32, fluxes: &[i32]) -> Call {
    Call::Zonal {
        layer,
        row,
        fluxes: fluxes.to_vec(),
    }
}

pub fn long_zonal(layer: u32, row: u32, fluxes: &[i32]) -> Call {
    Call::LongZonal {
        layer,
        row,
        fluxes: fluxes.to_vec(),
    }
}

pub fn count_zonal(layer: u32, row: u32, fluxes: &[i32]) -> Call {
    Call::CountZonal {
        layer,
        row,
        fluxes: fluxes.to_vec(),
    }
}

pub fn zonal_with_count(layer: u32, row: u32, given: u32, fluxes: &[i32]) -> Call {
    Call::ZonalWithCount {
        layer,
        row,
        given,
        fluxes: fluxes.to_vec(),
    }
}

pub fn meridional(layer: u32, fluxes: &[i32]) -> Call {
    Call::Meridional {
        layer,
        fluxes: fluxes.to_vec(),
    }
}

pub fn remap(table: &[u32]) -> Call {
    Call::Remap {
        table: table.to_vec(),
    }
}

pub fn emission(tracer: u32, cell: u32, amount: u32) -> Call {
    Call::Emission {
        tracer,
        cell,
        amount,
    }
}

pub fn withdrawal(tracer: u32, cell: u32, amount: u32) -> Call {
    Call::Withdrawal {
        tracer,
        cell,
        amount,
    }
}

pub fn add_emitter(tracer: u32, cell: u32, id: u32, units: u32) -> Call {
    Call::AddEmitter {
        tracer,
        cell,
        id,
        units,
    }
}

pub fn remove_emitter(tracer: u32, id: u32) -> Call {
    Call::RemoveEmitter { tracer, id }
}

pub fn tick(tracer: u32) -> Call {
    Call::Tick { tracer }
}

pub fn units_a_tick(tracer: u32) -> Call {
    Call::UnitsATick { tracer }
}

pub fn set_limiter(tracer: u32, limiter: u32, lo: u64, hi: u64) -> Call {
    Call::SetLimiter {
        tracer,
        limiter,
        lo,
        hi,
    }
}

/// The table that keeps K layers of equal air as they are.
pub fn even_table(layers: u32) -> Vec<u32> {
    (0..=layers)
        .flat_map(|j| [0, 65_536 * j / layers])
        .collect()
}

/// One call of each kind, with arguments that fit the grid. A removal needs an emitter.
pub fn each_call(grid: &Grid) -> Vec<Call> {
    vec![
        Call::Load,
        emission(0, 0, 0),
        withdrawal(0, 0, 0),
        zonal(0, 0, &vec![0; grid.w as usize]),
        long_zonal(0, 0, &vec![0; grid.w as usize]),
        count_zonal(0, 0, &vec![0; grid.w as usize]),
        zonal_with_count(0, 0, 1, &vec![0; grid.w as usize]),
        meridional(0, &vec![0; (grid.w * (grid.r + 1)) as usize]),
        remap(&even_table(grid.k)),
        Call::Total { tracer: 0 },
        Call::Cell { tracer: 0, cell: 0 },
        add_emitter(0, 0, 0, 0),
        tick(0),
        units_a_tick(0),
        set_limiter(0, 1, 0, 0),
    ]
}

/// Makes the call, and checks that a refusal has count 0 and changes nothing.
pub fn checked_call(world: &mut World, asked: &Call) -> Answer {
    let before = world.clone();
    let answer = call(world, asked);
    if answer.number != 0 {
        assert_eq!(answer.count, 0, "{asked:?}");
        assert_eq!(*world, before, "{asked:?}");
    }
    answer
}

/// Checks that the call gets this refusal.
pub fn expect_refusal(world: &World, asked: &Call, number: u32) {
    let mut copy = world.clone();
    assert_eq!(checked_call(&mut copy, asked), refused(number), "{asked:?}");
}

/// Checks that the call is accepted with this count, and gives the world after it.
pub fn expect_accepted(world: &World, asked: &Call, count: u64) -> World {
    let mut copy = world.clone();
    assert_eq!(checked_call(&mut copy, asked), accepted(count), "{asked:?}");
    copy
}

/// A xorshift generator.
pub struct Random(u64);

impl Random {
    pub fn new(seed: u64) -> Random {
        Random(seed.wrapping_mul(0x9E37_79B9_7F4A_7C15) | 1)
    }

    pub fn next(&mut self) -> u64 {
        self.0 ^= self.0 << 13;
        self.0 ^= self.0 >> 7;
        self.0 ^= self.0 << 17;
        self.0 >> 16
    }

    /// A number from least to most.
    pub fn between(&mut self, least: i64, most: i64) -> i64 {
        let span = (most - least) as u64 + 1;
        least + (self.next() % span) as i64
    }

    pub fn amount(&mut self, least: u32, most: u32) -> u32 {
        self.between(i64::from(least), i64::from(most)) as u32
    }

    pub fn one_in(&mut self, number: u64) -> bool {
        self.next().is_multiple_of(number)
    }
}

/// A small grid, once in a while a wide one.
pub fn random_grid(random: &mut Random) -> Grid {
    let w = if random.one_in(20) { 72 } else { 8 };
    grid(
        random.amount(4, w),
        random.amount(1, 4),
        random.amount(1, 6),
        random.amount(1, 3),
    )
}

pub fn random_air(random: &mut Random, cells: usize) -> Vec<u32> {
    let (least, most) = match random.next() % 6 {
        0 => (1, 3),
        1 => (100, 100),
        2 => (1, 200),
        3 => (60_000, 65_535),
        4 => (65_535, 65_535),
        _ => (1, 65_535),
    };
    (0..cells).map(|_| random.amount(least, most)).collect()
}

/// One tracer's amounts, with a total of at most 268,435,455.
pub fn random_tracer(random: &mut Random, air: &[u32]) -> Vec<u32> {
    let share = (MOST_TRACER / air.len() as u64) as u32;
    let total_air: u64 = air.iter().map(|&m| u64::from(m)).sum();
    match random.next() % 7 {
        0 => vec![0; air.len()],
        1 | 2 => {
            let most = (MOST_TRACER / total_air).min(1_000) as u32;
            let z = random.amount(0, most);
            air.iter().map(|&m| z * m).collect()
        }
        3 => (0..air.len()).map(|_| random.amount(0, 9)).collect(),
        4 => {
            let mut amounts = vec![0; air.len()];
            amounts[random.next() as usize % air.len()] = MOST_TRACER as u32;
            amounts
        }
        5 => (0..air.len())
            .map(|_| if random.one_in(2) { share } else { 0 })
            .collect(),
        _ => (0..air.len()).map(|_| random.amount(0, share)).collect(),
    }
}

/// A world that a load accepts, with limiters that 21 lets pass and books that 22 lets pass: the
/// first limiter for all tracers, or any for each, and books of a load or of any history.
pub fn random_world(random: &mut Random) -> World {
    let grid = random_grid(random);
    let air = random_air(random, cells(&grid));
    let tracers = (0..grid.n)
        .flat_map(|_| random_tracer(random, &air))
        .collect();
    with_some_ledger(random, world_of(grid, air, tracers))
}

/// The world, one time in two with a random limiter for each tracer, and one time in two with random
/// books for each.
fn with_some_ledger(random: &mut Random, mut world: World) -> World {
    if random.one_in(2) {
        limits::put_random_limits(random, &mut world);
    }
    if random.one_in(2) {
        books::put_random_books(random, &mut world);
    }
    world
}

/// Air of cells with a thin gas, or of a nearly even ratio.
pub fn random_thick_air(random: &mut Random, cells: usize) -> Vec<u32> {
    (0..cells).map(|_| random.amount(10_000, 65_535)).collect()
}

/// "gases of one unit in a thousand of air": each amount within two units of it, or with a slope.
pub fn random_thin_tracer(random: &mut Random, air: &[u32]) -> Vec<u32> {
    let (less, more) = if random.one_in(4) { (9, 9) } else { (1, 2) };
    let of_a_thousand =
        |random: &mut Random, m: u32| i64::from(m / 1_000) + random.between(-less, more);
    air.iter()
        .map(|&m| of_a_thousand(random, m).max(0) as u32)
        .collect()
}

/// A fraction of air that is the same in all cells, each amount cut to whole units, or one more:
/// the ratios hardly differ.
pub fn random_even_tracer(random: &mut Random, air: &[u32]) -> Vec<u32> {
    let total_air: u64 = air.iter().map(|&m| u64::from(m)).sum();
    let most = (MOST_TRACER - air.len() as u64) / total_air;
    let parts = match random.next() % 4 {
        0 => 1 << random.between(0, 12),
        1 => random.between(1, 9),
        2 => random.between(900, 1_100),
        _ => random.between(1, 65_535),
    } as u64;
    let share = match random.next() % 3 {
        0 => 1,
        1 => random.next() % (2 * parts) + 1,
        _ => random.next() % (parts * most.max(1)) + 1,
    };
    let share = share.min(parts * most);
    air.iter()
        .map(|&m| (share * u64::from(m) / parts + random.next() % 2) as u32)
        .collect()
}

/// Almost all that a tracer may have in one cell, and enough beside it for the largest mismatch.
pub fn random_full_tracer(random: &mut Random, cells: usize) -> Vec<u32> {
    let mut amounts = vec![0; cells];
    let place = random.next() as usize % cells;
    let beside = if random.one_in(3) {
        0
    } else {
        random.amount(1, 70_000)
    };
    amounts[place] = MOST_TRACER as u32 - beside;
    amounts[(place + 1) % cells] = beside;
    amounts
}

/// A world of thin gases, or of nearly even ones.
pub fn random_thin_world(random: &mut Random) -> World {
    let grid = random_grid(random);
    let air = random_thick_air(random, cells(&grid));
    let tracers = (0..grid.n)
        .flat_map(|_| match random.next() % 3 {
            0 => random_even_tracer(random, &air),
            _ => random_thin_tracer(random, &air),
        })
        .collect();
    with_some_ledger(random, world_of(grid, air, tracers))
}

/// A world of air at its limits and of tracers at theirs.
pub fn random_extreme_world(random: &mut Random) -> World {
    let grid = random_grid(random);
    let small = random.between(0, 2) as u64;
    let below = if random.one_in(2) { 1 } else { 30_000 };
    let air: Vec<u32> = (0..cells(&grid))
        .map(|_| match random.next() % 4 {
            place if place < small => random.amount(1, 2),
            _ => 65_535 - random.amount(0, below),
        })
        .collect();
    let tracers = (0..grid.n)
        .flat_map(|_| match random.next() % 4 {
            0 => random_tracer(random, &air),
            1 => random_even_tracer(random, &air),
            _ => random_full_tracer(random, air.len()),
        })
        .collect();
    with_some_ledger(random, world_of(grid, air, tracers))
}

/// An index that is mostly present.
fn random_index(random: &mut Random, number: usize) -> u32 {
    if random.one_in(40) {
        return number as u32 + random.amount(0, 2);
    }
    (random.next() % number as u64) as u32
}

pub fn random_row_fluxes(random: &mut Random, row_air: &[u32]) -> Vec<i32> {
    let columns = row_air.len();
    let least = i64::from(*row_air.iter().min().unwrap());
    let base = match random.next() % 4 {
        0 => 0,
        1 => random.between(-least, least),
        _ => random.between(-16 * least, 16 * least),
    };
    let change = match random.next() % 4 {
        0 => 0,
        1 => 1,
        2 => least / 2,
        _ => least * 2,
    };
    (0..columns)
        .map(|_| (base + random.between(-change, change)) as i32)
        .collect()
}

/// Fluxes of a long sweep: a shift of the row by up to a whole turn either way, with changes that
/// mostly leave air in each cell.
pub fn random_long_fluxes(random: &mut Random, row_air: &[u32]) -> Vec<i32> {
    let turn: i64 = row_air.iter().map(|&m| i64::from(m)).sum();
    let least = i64::from(*row_air.iter().min().unwrap());
    let base = match random.next() % 6 {
        0 => 0,
        1 => turn - random.between(0, least),
        2 => random.between(0, least) - turn,
        3 => random.between(-least, least),
        _ => random.between(-turn, turn),
    };
    let change = match random.next() % 4 {
        0 => 0,
        1 => 1,
        2 => least / 2,
        _ => least,
    };
    let bound = turn + i64::from(random.one_in(30));
    (0..row_air.len())
        .map(|_| (base + random.between(-change, change)).clamp(-bound, bound) as i32)
        .collect()
}

fn random_layer_fluxes(random: &mut Random, grid: &Grid, layer_air: &[u32]) -> Vec<i32> {
    let columns = grid.w as usize;
    let number = columns * (grid.r as usize + 1);
    let share = 1 + (random.next() % 4) as i64;
    (0..number)
        .map(|f| {
            let (row, column) = (f / columns, f % columns);
            let south = if row == 0 {
                0
            } else {
                1 + (row - 1) * columns + column
            };
            let north = if row == grid.r as usize {
                layer_air.len() - 1
            } else {
                1 + row * columns + column
            };
            let at_cap = row == 0 || row == grid.r as usize;
            let divisor = if at_cap {
                share * columns as i64
            } else {
                share
            };
            let least = i64::from(layer_air[south].min(layer_air[north])) / divisor;
            random.between(-least, least) as i32
        })
        .collect()
}

fn random_table(random: &mut Random, layers: u32) -> Vec<u32> {
    let mut inner: Vec<u32> = (1..layers)
        .map(|j| match random.next() % 4 {
            0 => 65_536 * j / layers,
            1 | 2 => {
                (65_536 * j / layers).saturating_add_signed(random.between(-2_000, 2_000) as i32)
            }
            _ => random.amount(1, 65_535),
        })
        .collect();
    inner.sort_unstable();
    let offset = if random.one_in(3) { 40 } else { 0 };
    let mut table = vec![0, 0];
    for b in inner {
        table.extend([random.amount(0, offset), b]);
    }
    table.extend([0, 65_536]);
    table
}

/// A layer, a row, and fluxes for its air. Layer and row are mostly present.
pub fn random_row(
    random: &mut Random,
    world: &World,
    fluxes: fn(&mut Random, &[u32]) -> Vec<i32>,
) -> (u32, u32, Vec<i32>) {
    let grid = &world.grid;
    let layer = random_index(random, grid.k as usize);
    let row = random_index(random, grid.r as usize);
    let first = layer as usize * layer_cells(grid) + 1 + (row * grid.w) as usize;
    let row_air = world.air.get(first..first + grid.w as usize);
    let spare = vec![100; grid.w as usize];
    (layer, row, fluxes(random, row_air.unwrap_or(&spare)))
}

/// The count before a sweep, or the sweep with a count given to it, mostly the right one.
fn random_press(random: &mut Random, world: &World) -> Call {
    let (layer, row, fluxes) = random_row(random, world, random_row_fluxes);
    let counted = count_zonal(layer, row, &fluxes);
    if random.one_in(3) {
        return counted;
    }
    let given = match random.next() % 8 {
        0 => random.amount(0, 20),
        1 => random.next() as u32,
        _ => call(&mut world.clone(), &counted).count as u32,
    };
    zonal_with_count(layer, row, given, &fluxes)
}

/// A call on the emitters, with few ids, so that they are met again.
fn random_emitter_call(random: &mut Random, world: &World) -> Call {
    let grid = &world.grid;
    let tracer = random_index(random, grid.n as usize);
    let id = random.amount(0, 20) * 214_748_364;
    match random.next() % 8 {
        0..=3 => {
            let units = match random.next() % 20 {
                0 => 0,
                1 => u32::MAX,
                _ => random.amount(0, 1_000),
            };
            add_emitter(tracer, random_index(random, cells(grid)), id, units)
        }
        4 => {
            let first = world.ledger.get(BLOCK * tracer as usize + 3);
            let standing = first.filter(|_| random.one_in(2));
            remove_emitter(tracer, *standing.unwrap_or(&id))
        }
        5 | 6 => tick(tracer),
        _ => units_a_tick(tracer),
    }
}

/// A tracer's limiter and bounds, mostly such as 21 lets pass.
fn random_set_limiter(random: &mut Random, world: &World) -> Call {
    let tracer = random_index(random, world.grid.n as usize);
    let named = tracer as usize % world.grid.n as usize;
    let mut limits = random_limits(random, world, named);
    match random.next() % 20 {
        0 => limits.limiter = random.amount(4, 9),
        1 => limits.limiter = 0,
        2 => std::mem::swap(&mut limits.lo, &mut limits.hi),
        _ => {}
    }
    set_limiter(tracer, limits.limiter, limits.lo, limits.hi)
}

/// A call on this world: mostly one that is accepted.
pub fn random_call(random: &mut Random, world: &World) -> Call {
    let grid = &world.grid;
    let (cells, layer_cells) = (cells(grid), layer_cells(grid));
    match random.next() % 35 {
        0 => emission(
            random_index(random, grid.n as usize),
            random_index(random, cells),
            random.amount(0, 1_000),
        ),
        1 => {
            let tracer = random_index(random, grid.n as usize);
            let cell = random_index(random, cells);
            let place = tracer as usize * cells + cell as usize;
            let most = world.tracers.get(place).copied().unwrap_or(9);
            withdrawal(tracer, cell, random.amount(0, most + 1))
        }
        2..=6 => {
            let (layer, row, fluxes) = random_row(random, world, random_row_fluxes);
            Call::Zonal { layer, row, fluxes }
        }
        7..=10 => {
            let layer = random_index(random, grid.k as usize);
            let first = layer as usize * layer_cells;
            let layer_air = world.air.get(first..first + layer_cells);
            let spare = vec![100; layer_cells];
            let fluxes = random_layer_fluxes(random, grid, layer_air.unwrap_or(&spare));
            Call::Meridional { layer, fluxes }
        }
        11..=13 => Call::Remap {
            table: random_table(random, grid.k),
        },
        14 => Call::Total {
            tracer: random_index(random, grid.n as usize),
        },
        16..=19 => {
            let (layer, row, fluxes) = random_row(random, world, random_long_fluxes);
            Call::LongZonal { layer, row, fluxes }
        }
        20..=25 => random_emitter_call(random, world),
        26..=31 => random_press(random, world),
        32..=34 => random_set_limiter(random, world),
        _ => Call::Cell {
            tracer: random_index(random, grid.n as usize),
            cell: random_index(random, cells),
        },
    }
}

/// One tracer of a column, with its new edges. Its limiter is the first, if it isn't said.
#[derive(Debug)]
pub struct ColumnCase {
    pub limits: Limits,
    pub air: Vec<u32>,
    pub tracer: Vec<u32>,
    pub edges: Vec<i64>,
}

pub fn signed(amounts: &[u32]) -> Vec<i64> {
    amounts.iter().map(|&amount| i64::from(amount)).collect()
}

impl ColumnCase {
    /// K.
    pub fn layers(&self) -> usize {
        self.air.len()
    }

    /// Every edge as an a; the last pair is (0, 65,536).
    pub fn table(&self) -> Vec<u32> {
        let inner = &self.edges[..self.layers()];
        let pairs = inner.iter().flat_map(|&edge| [edge as u32, 0]);
        pairs.chain([0, 65_536]).collect()
    }

    /// The air above each old layer, and at last that of the whole column.
    pub fn ends(&self) -> Vec<i64> {
        let mut ends = vec![0];
        for (k, &air) in self.air.iter().enumerate() {
            ends.push(ends[k] + i64::from(air));
        }
        ends
    }
}

/// K + 1 edges from 0 to the column's air, each 1 to 65,535 above the one before it.
fn random_edges(random: &mut Random, ends: &[i64]) -> Vec<i64> {
    let layers = ends.len() as i64 - 1;
    let total = ends[ends.len() - 1];
    let kind = random.next() % 8;
    let mut edges = vec![0];
    for j in 1..=layers {
        let (before, left) = (edges[edges.len() - 1], layers - j);
        let least = (before + 1).max(total - 65_535 * left);
        let most = (before + 65_535).min(total - left);
        let fitting: Vec<i64> = (ends.iter().copied())
            .filter(|end| (least..=most).contains(end))
            .collect();
        let choice = if kind < 6 { kind } else { random.next() % 6 };
        let edge = match (choice, fitting.len()) {
            (0 | 1, 1..) => fitting[0],
            (2, 1..) => fitting[random.next() as usize % fitting.len()],
            (3, _) => least,
            (4, _) => (least + random.between(0, 3)).min(most),
            _ => random.between(least, most),
        };
        edges.push(edge);
    }
    edges
}

fn random_column(random: &mut Random, layers: usize) -> ColumnCase {
    let air = random_air(random, layers);
    let tracer = random_tracer(random, &air);
    let mut case = ColumnCase {
        limits: limits::FIRST,
        air,
        tracer,
        edges: Vec::new(),
    };
    case.edges = random_edges(random, &case.ends());
    case
}

/// The random columns of K layers, the same in every test.
pub fn random_columns(layers: usize) -> Vec<ColumnCase> {
    let mut random = Random::new(30 + layers as u64);
    (0..400)
        .map(|_| random_column(&mut random, layers))
        .collect()
}
