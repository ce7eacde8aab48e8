//! The library's time for each cell and tracer as W, R, K and N grow, and the tests' bandwidth and share.

use crate::timing::{nothing_left, now, spread, time, Left, Spread, Work};
use crate::versions::{read, VERSIONS};
use crate::works::{self, FULL};
use reference::{Call, Grid, World};
use std::hint::black_box;

/// The sizes that one of the grid's numbers takes.
pub const SIZES: [(&str, [u32; 4]); 4] = [
    ("W", [9, 18, 36, 72]),
    ("R", [6, 11, 22, 44]),
    ("K", [4, 8, 16, 32]),
    ("N", [1, 2, 4, 8]),
];

fn with(grid: Grid, name: &str, size: u32) -> Grid {
    match name {
        "W" => Grid { w: size, ..grid },
        "R" => Grid { r: size, ..grid },
        "K" => Grid { k: size, ..grid },
        _ => Grid { n: size, ..grid },
    }
}

/// A kind of call in a world whose size is that of what the call itself sweeps, so that both grow alike.
pub struct Grown {
    pub name: &'static str,
    pub grid: Grid,
    pub grows_with: &'static str,
    pub calls: fn(&mut crate::worlds::Random, &World) -> Vec<Call>,
}

pub const GROWN: [Grown; 5] = [
    Grown {
        name: "load",
        grid: FULL,
        grows_with: "WRKN",
        calls: |_, _| vec![Call::Load],
    },
    Grown {
        name: "zonal",
        grid: Grid { r: 1, k: 1, ..FULL },
        grows_with: "WN",
        calls: works::zonal,
    },
    Grown {
        name: "long_zonal",
        grid: Grid { r: 1, k: 1, ..FULL },
        grows_with: "WN",
        calls: works::long_zonal,
    },
    Grown {
        name: "meridional",
        grid: Grid { k: 1, ..FULL },
        grows_with: "WRN",
        calls: works::meridional,
    },
    Grown {
        name: "remap",
        grid: FULL,
        grows_with: "WRKN",
        calls: works::remap,
    },
];

/// Seconds of the library for each cell and tracer; a load's air counts as one more tracer, since it only reads.
fn unit(round: usize, kind: &Grown, work: &Work, left: &mut Left) -> f64 {
    let air = if kind.name == "load" {
        work.start.air.len()
    } else {
        0
    };
    let numbers = (air + work.start.tracers.len()) * work.calls.len();
    time(&VERSIONS[0], round, work, left) / numbers as f64
}

/// For each size, the time for each cell and tracer as a part of that at the first size.
pub fn grow(kind: &Grown, name: &str, sizes: [u32; 4], rounds: usize) -> [Spread; 4] {
    let work = |size| works::work(5, with(kind.grid, name, size), kind.calls, 50_000);
    let works = sizes.map(work);
    let mut lefts: Vec<Left> = works.iter().map(|work| nothing_left(&work.start)).collect();
    let mut units: [Vec<f64>; 4] = Default::default();
    for round in 0..rounds {
        let seconds: [f64; 4] =
            std::array::from_fn(|i| unit(round, kind, &works[i], &mut lefts[i]));
        for (unit, second) in units.iter_mut().zip(seconds) {
            unit.push(second / seconds[0]);
        }
    }
    units.map(spread)
}

/// The share of the read bandwidth that each version's load reaches: a plain read's time as a part of the load's.
pub fn bandwidth(grid: Grid, version: usize, rounds: usize) -> Spread {
    let work = works::work(6, grid, |_, _| vec![Call::Load], 100_000);
    let mut left = nothing_left(&work.start);
    let share = |round| {
        let seconds = time(&VERSIONS[version], round, &work, &mut left);
        let begin = now();
        for _ in &work.calls {
            black_box(read(black_box(&left.world.air)));
            black_box(read(black_box(&left.world.tracers)));
        }
        (now() - begin) / seconds
    };
    spread((0..rounds).map(share).collect())
}

/// The share of the tests in a call: the time of as many loads as a part of the calls'.
pub fn share(kind: &works::Kind, version: usize, rounds: usize) -> Spread {
    let work = works::work(7, FULL, kind.calls, 0);
    let loads = Work {
        start: work.start.clone(),
        calls: vec![Call::Load; work.calls.len()],
    };
    let mut left = nothing_left(&work.start);
    let share = |round| {
        let mut seconds = |work| time(&VERSIONS[version], round, work, &mut left);
        seconds(&loads) / seconds(&work)
    };
    spread((0..rounds).map(share).collect())
}
