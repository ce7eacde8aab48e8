//! Seeded inputs of the runner: whole, nearly whole, damaged, cut off, and any bytes.

use crate::reached::BY_SUM;
use crate::worlds::{self, Random};
use crate::{filled, records};
use reference::{Call, Grid, World};

/// An input in pieces, each a record or what is left of one.
pub type Pieces = Vec<Vec<u8>>;

/// The first inputs are on small grids, so that a difference is met in a small one.
const SMALL_ONES: u64 = 500;
/// Of so many inputs the last is long, and the one in the middle fills the sums of a book.
const HUNDRED: u64 = 100;

/// An input, and how often in it 6 and 7 are given by a sum of a book alone, where that is known.
pub struct Input {
    pub pieces: Pieces,
    pub by_sum: [u64; BY_SUM.len()],
}

/// The input with this number.
pub fn input(number: u64) -> Input {
    let mut random = Random::new(number + 1);
    if number % HUNDRED == HUNDRED / 2 - 1 {
        return filled::input(&mut random);
    }
    let by_sum = Default::default();
    let pieces = if number % HUNDRED == HUNDRED - 1 {
        long(&mut random)
    } else {
        short(&mut random, number)
    };
    Input { pieces, by_sum }
}

/// An input of 20 to 60 records, or less: whole, or with something wrong.
fn short(random: &mut Random, number: u64) -> Pieces {
    let way = random.below(20);
    if way == 0 {
        return vec![any_bytes(random)];
    }
    let grid = program_grid(random, number >= SMALL_ONES);
    let size = random.between(20, 60);
    let pieces = whole(random, grid, size, 25);
    match way {
        1 => bytes_after_load(random, pieces),
        2..=5 => misplaced(random, pieces),
        6..=8 => damaged(random, pieces),
        9..=11 => cut_off(random, pieces),
        _ => pieces,
    }
}

/// More than 1,000 records on a small grid, each in its place and whole, so that the program reads them all.
fn long(random: &mut Random) -> Pieces {
    let grid = program_grid(random, false);
    let size = random.between(1_000, 1_500);
    whole(random, grid, size, 200)
}

/// An input of so many records on a small grid, handed on record by record.
pub fn long_loop(records: u64, take: impl FnMut(Vec<u8>)) {
    let grid = Grid {
        w: 4,
        r: 2,
        k: 2,
        n: 2,
    };
    let random = &mut Random::new(1);
    each_of_whole(random, grid, [records - 1, 1_000], next_call, take);
}

/// One long input on a grid of as many cells as the program takes.
pub fn long_run() -> Pieces {
    let grid = Grid {
        w: 62,
        r: 1,
        k: 32,
        n: 2,
    };
    whole(&mut Random::new(1), grid, 600, 200)
}

/// A grid that the program takes: small, or of any size up to as many cells as it takes.
pub fn program_grid(random: &mut Random, large: bool) -> Grid {
    let (w, r, k) = match random.below(if large { 8 } else { 1 }) {
        0..=3 => (6, 2, 3),
        4 | 5 => (12, 5, 6),
        6 => (62, 1, 32),
        _ => (72, 44, 32),
    };
    let mut g = Grid {
        w: random.between(4, w) as u32,
        r: random.between(1, r) as u32,
        k: random.between(1, k) as u32,
        n: random.between(1, 2) as u32,
    };
    if large && random.one_in(20) {
        let full = [(62, 1, 32), (42, 3, 16), (51, 10, 4), (62, 33, 1)];
        (g.w, g.r, g.k) = full[random.below(4) as usize];
    }
    while worlds::cells(&g) > 2_048 {
        if g.k > 1 {
            g.k -= 1;
        } else {
            g.r -= 1;
        }
    }
    g
}

/// A grid that the program refuses: 1 or 15.
fn refused_grid(random: &mut Random) -> Vec<u8> {
    let grids = [
        [3, 1, 1, 1],
        [73, 1, 1, 1],
        [4, 0, 1, 1],
        [4, 45, 1, 1],
        [4, 1, 0, 1],
        [4, 1, 33, 1],
        [4, 1, 1, 0],
        [4, 1, 1, 9],
        [63, 0, 32, 9],
        [255, 255, 255, 255],
        [4, 1, 1, 3],
        [4, 1, 1, 8],
        [63, 1, 32, 2],
        [33, 31, 2, 1],
        [64, 32, 1, 2],
        [72, 44, 32, 8],
    ];
    let grid = grids[random.below(grids.len() as u64) as usize];
    [vec![1], grid.to_vec()].concat()
}

/// The grid and `size` records after it, each in its place and whole. One record in `loads` is a load.
fn whole(random: &mut Random, grid: Grid, size: u64, loads: u64) -> Pieces {
    let mut pieces = Vec::new();
    let take = |piece| pieces.push(piece);
    each_of_whole(random, grid, [size, loads], next_call, take);
    pieces
}

/// The records of `whole`, handed on one by one, with the calls that `ask` gives.
pub fn each_of_whole(
    random: &mut Random,
    grid: Grid,
    [size, loads]: [u64; 2],
    mut ask: impl FnMut(&mut Random, &World) -> Call,
    mut take: impl FnMut(Vec<u8>),
) {
    take(records::grid(&grid));
    let mut world: Option<World> = None;
    for _ in 0..size {
        match world.as_mut() {
            Some(world) if !random.one_in(loads) => {
                let asked = ask(random, world);
                reference::call(world, &asked);
                take(records::call(&asked));
            }
            _ => {
                let mut next = next_world(random, grid, world.take());
                take(records::load(&next));
                let answer = reference::call(&mut next, &Call::Load);
                world = (answer.number == 0).then_some(next);
            }
        }
    }
}

/// The numbers of a load, of the grid's lengths; now and then those that are loaded already.
fn next_world(random: &mut Random, grid: Grid, now: Option<World>) -> World {
    if let Some(world) = now.filter(|_| random.one_in(3)) {
        return world;
    }
    let mut world = worlds::world(random, grid);
    let cells = worlds::cells(&grid) as usize;
    world.air.resize(cells, 0);
    world.tracers.resize(grid.n as usize * cells, 0);
    world
}

/// Any call that has a record.
pub fn next_call(random: &mut Random, world: &World) -> Call {
    loop {
        let asked = match random.below(16) {
            0..=2 => steady_wind(random, world),
            3 => drained_cell(random, world),
            4 => even_layers(random, world.grid.k as u64),
            _ => worlds::recorded_call(random, world),
        };
        if asked != Call::Load {
            return records::fitted(asked, &world.grid);
        }
    }
}

/// A zonal sweep in which the row's least air sets the count: each of 1 to 16, or none that serves.
fn steady_wind(random: &mut Random, world: &World) -> Call {
    let g = &world.grid;
    let (layer, row) = (random.below(g.k as u64), random.below(g.r as u64));
    let start = (layer * (2 + g.r as u64 * g.w as u64) + 1 + row * g.w as u64) as usize;
    let least = *world.air[start..start + g.w as usize].iter().min().unwrap() as u64;
    let count = random.between(1, 17);
    let size = (least * count - random.below(least)) as i32;
    let flux = if random.one_in(2) { size } else { -size };
    let mut fluxes = vec![flux; g.w as usize];
    if random.one_in(4) {
        let face = random.below(g.w as u64) as usize;
        fluxes[face] += random.below(least / 4 + 1) as i32;
    }
    Call::Zonal {
        layer: layer as u32,
        row: row as u32,
        fluxes,
    }
}

/// A withdrawal of all that a cell has, or of a little more.
fn drained_cell(random: &mut Random, world: &World) -> Call {
    let cells = worlds::cells(&world.grid);
    let (tracer, cell) = (random.below(world.grid.n as u64), random.below(cells));
    let had = world.tracers[(tracer * cells + cell) as usize];
    Call::Withdrawal {
        tracer: tracer as u32,
        cell: cell as u32,
        amount: had + random.below(3) as u32,
    }
}

/// A remap to layers of about the same air, which is accepted where no cell has very much air.
fn even_layers(random: &mut Random, k: u64) -> Call {
    let mut table = vec![0, 0];
    for j in 1..k {
        let b = 65_536 * j / k + random.below(65_536 / (8 * k));
        table.extend([0, b as u32]);
    }
    table.extend([0, 65_536]);
    Call::Remap { table }
}

/// One record more, less or exchanged, so that some record is unknown or out of place.
fn misplaced(random: &mut Random, mut pieces: Pieces) -> Pieces {
    let place = random.between(1, pieces.len() as u64 - 1) as usize;
    match random.below(8) {
        0 => pieces.insert(place, vec![unknown_kind(random)]),
        1 => pieces.insert(place, pieces[0].clone()),
        2 => drop(pieces.remove(0)),
        3 => drop(pieces.remove(1)),
        4 => pieces.insert(place, refused_load(&pieces)),
        5 => pieces.swap(1, place),
        6 => pieces.insert(
            random.below(2) as usize,
            vec![random.between(2, 9) as u8; 9],
        ),
        _ => pieces[0] = refused_grid(random),
    }
    pieces
}

fn unknown_kind(random: &mut Random) -> u8 {
    if random.one_in(4) {
        0
    } else {
        random.between(10, 255) as u8
    }
}

/// The first load with no air in its first cell (place 3), after which nothing is loaded.
fn refused_load(pieces: &Pieces) -> Vec<u8> {
    let mut load = pieces[1].clone();
    load[1..5].fill(0);
    load
}

/// A few bytes of a few records changed, left out or put in.
fn damaged(random: &mut Random, mut pieces: Pieces) -> Pieces {
    for _ in 0..random.between(1, 4) {
        let piece = random.below(pieces.len() as u64) as usize;
        let piece = &mut pieces[piece];
        let at = random.below(piece.len().max(1) as u64) as usize;
        let byte = [0, 1, 127, 128, 255, random.below(256) as u8][random.below(6) as usize];
        match random.below(6) {
            0 => piece.insert(at, byte),
            1 if at < piece.len() => drop(piece.remove(at)),
            _ if at < piece.len() => piece[at] = byte,
            _ => piece.push(byte),
        }
    }
    pieces
}

/// The input up to a place inside a record, at the earliest after its kind, or up to a record's end.
fn cut_off(random: &mut Random, mut pieces: Pieces) -> Pieces {
    let early = random.one_in(3);
    let records = if early { 3 } else { pieces.len() as u64 };
    let last = random.below(records) as usize;
    pieces.truncate(last + 1);
    let length = random.between(1, pieces[last].len() as u64) as usize;
    pieces[last].truncate(length);
    pieces
}

/// The grid and the first load, then any bytes.
fn bytes_after_load(random: &mut Random, mut pieces: Pieces) -> Pieces {
    pieces.truncate(2);
    pieces.push(any_bytes(random));
    pieces
}

/// Up to 300 bytes; in half of the inputs small ones, so that they are kinds and indices that exist.
fn any_bytes(random: &mut Random) -> Vec<u8> {
    let most = if random.one_in(2) { 11 } else { 256 };
    let length = random.below(301);
    (0..length).map(|_| random.below(most) as u8).collect()
}
