//! The works that are timed: each call on a grid, in lists long enough for the clock.

use crate::inputs;
use crate::timing::Work;
use crate::worlds::Random;
use reference::{Call, Grid, World};

pub const SMALL: Grid = Grid {
    w: 8,
    r: 3,
    k: 2,
    n: 2,
};
pub const FULL: Grid = Grid {
    w: 72,
    r: 44,
    k: 32,
    n: 8,
};

/// The calls of one kind, its name, and how many emitters stand for each tracer.
pub struct Kind {
    pub name: &'static str,
    pub calls: fn(&mut Random, &World) -> Vec<Call>,
    pub standing: usize,
}

pub const KINDS: [Kind; 15] = [
    Kind {
        name: "load",
        calls: |_, _| vec![Call::Load],
        standing: 0,
    },
    Kind {
        name: "emission",
        calls: |_, world| {
            vec![Call::Emission {
                tracer: 0,
                cell: middle(world),
                amount: 1,
            }]
        },
        standing: 0,
    },
    Kind {
        name: "withdrawal",
        calls: |_, world| {
            vec![Call::Withdrawal {
                tracer: 0,
                cell: middle(world),
                amount: 1,
            }]
        },
        standing: 0,
    },
    Kind {
        name: "total",
        calls: |_, _| vec![Call::Total { tracer: 0 }],
        standing: 0,
    },
    Kind {
        name: "cell",
        calls: |_, world| {
            vec![Call::Cell {
                tracer: 0,
                cell: middle(world),
            }]
        },
        standing: 0,
    },
    Kind {
        name: "zonal",
        calls: zonal,
        standing: 0,
    },
    Kind {
        name: "count_zonal",
        calls: count_zonal,
        standing: 0,
    },
    Kind {
        name: "zonal_with_count",
        calls: zonal_with_count,
        standing: 0,
    },
    Kind {
        name: "long_zonal",
        calls: long_zonal,
        standing: 0,
    },
    Kind {
        name: "meridional",
        calls: meridional,
        standing: 0,
    },
    Kind {
        name: "remap",
        calls: remap,
        standing: 0,
    },
    Kind {
        name: "add_emitter, remove_emitter",
        calls: |_, world| {
            let (tracer, id) = (0, 1_000);
            let add = Call::AddEmitter {
                tracer,
                cell: middle(world),
                id,
                units: 1,
            };
            vec![add, Call::RemoveEmitter { tracer, id }]
        },
        standing: 15,
    },
    Kind {
        name: "tick",
        calls: |_, _| vec![Call::Tick { tracer: 0 }],
        standing: 16,
    },
    Kind {
        name: "units_a_tick",
        calls: |_, _| vec![Call::UnitsATick { tracer: 0 }],
        standing: 16,
    },
    Kind {
        name: "set_limiter",
        calls: |_, _| {
            vec![Call::SetLimiter {
                tracer: 0,
                limiter: 3,
                lo: 1_000,
                hi: u64::MAX,
            }]
        },
        standing: 0,
    },
];

impl Kind {
    /// Whether the call moves air, and is timed under every limiter.
    pub fn moves(&self) -> bool {
        ["zonal", "long_zonal", "meridional", "remap"].contains(&self.name)
    }
}

fn middle(world: &World) -> u32 {
    world.air.len() as u32 / 2
}

/// Six rows with weak, middle and strong winds, and each back.
pub fn zonal(random: &mut Random, world: &World) -> Vec<Call> {
    let grid = world.grid;
    (0..6)
        .flat_map(|i| {
            let share = [0.2, 0.6, 1.2, 1.6, 2.0, 0.4][i as usize];
            let there = inputs::zonal(random, world, i % grid.k, (7 * i) % grid.r, share);
            let back = inputs::opposite(&there);
            [there, back]
        })
        .collect()
}

/// The counts before the same sweeps, none of which is made.
fn count_zonal(random: &mut Random, world: &World) -> Vec<Call> {
    let sweeps = zonal(random, world);
    sweeps.iter().map(inputs::count_before).collect()
}

/// The same sweeps, each with the count that it has where those before it were made.
fn zonal_with_count(random: &mut Random, world: &World) -> Vec<Call> {
    let mut now = world.clone();
    let sweeps = zonal(random, world);
    let mut counted = |sweep: &Call| {
        let call = inputs::with_count(&now, sweep);
        reference::call(&mut now, sweep);
        call
    };
    sweeps.iter().map(&mut counted).collect()
}

/// Six rows with winds of up to six and a half cells, and each back.
pub fn long_zonal(random: &mut Random, world: &World) -> Vec<Call> {
    let grid = world.grid;
    (0..6)
        .flat_map(|i| {
            let cells = [0.4, 1.5, 2.5, 3.5, 4.5, 6.5][i as usize];
            let there = inputs::long_zonal(random, world, i % grid.k, (7 * i) % grid.r, cells);
            let back = inputs::opposite(&there);
            [there, back]
        })
        .collect()
}

/// One layer, and back.
pub fn meridional(random: &mut Random, world: &World) -> Vec<Call> {
    let there = inputs::meridional(random, world, world.grid.k / 2);
    let back = inputs::opposite(&there);
    vec![there, back]
}

/// Two tables in turn, so that edges lie inside the layers that the other one made.
pub fn remap(random: &mut Random, world: &World) -> Vec<Call> {
    (0..2)
        .map(|_| inputs::table(random, world.grid.k))
        .collect()
}

/// The calls of a kind on a world of the grid, repeated until about `numbers` numbers are read.
pub fn work(
    seed: u64,
    grid: Grid,
    calls: fn(&mut Random, &World) -> Vec<Call>,
    numbers: usize,
) -> Work {
    let mut random = Random::new(seed);
    let start = inputs::world(&mut random, grid);
    let calls = calls(&mut random, &start);
    let once = (start.air.len() + start.tracers.len()) * calls.len();
    let times = (numbers / once).clamp(1, 500);
    let calls = std::iter::repeat_n(calls, times).flatten().collect();
    Work { start, calls }
}
