//! The long sweep, and the two presses, beside the zonal sweep with the same fluxes, on winds that need some number of substeps.

use crate::inputs;
use crate::timing::{nothing_left, spread, time, Spread, Work};
use crate::versions::VERSIONS;
use crate::worlds::Random;
use reference::{Answer, Call, Grid, World};

/// What stands beside a zonal sweep: the calls, and the count that each of them gives where the sweep takes so many substeps.
pub struct Beside {
    calls: fn(&World, &Call) -> Vec<Call>,
    count: fn(u64) -> u64,
}

pub const LONG: Beside = Beside {
    calls: |_, sweep| vec![long(sweep)],
    count: |_| 0,
};

/// The count, and the sweep with it.
pub const PRESSES: Beside = Beside {
    calls: |world, sweep| {
        vec![
            inputs::count_before(sweep),
            inputs::with_count(world, sweep),
        ]
    },
    count: |substeps| substeps,
};

/// The zonal sweep of a row by the same flux through every face, which needs so many substeps: the air stays as it is, and
/// the row's least air sets the count.
fn zonal(world: &World, row: u32, substeps: u64) -> Call {
    let w = world.grid.w as usize;
    let first = 1 + row as usize * w;
    let least = u64::from(*world.air[first..first + w].iter().min().unwrap());
    let flux = (least * substeps - least / 2) as i32;
    Call::Zonal {
        layer: 0,
        row,
        fluxes: vec![flux; w],
    }
}

/// The same as a long sweep.
fn long(call: &Call) -> Call {
    match call {
        Call::Zonal { layer, row, fluxes } => Call::LongZonal {
            layer: *layer,
            row: *row,
            fluxes: fluxes.clone(),
        },
        other => other.clone(),
    }
}

/// Up to six rows, each there and back, repeated until about 100,000 numbers are read.
fn zonal_work(grid: Grid, substeps: u64) -> Work {
    let start = inputs::world(&mut Random::new(8), grid);
    let calls: Vec<Call> = (0..grid.r.min(6))
        .map(|row| zonal(&start, row, substeps))
        .flat_map(|there| [there.clone(), inputs::opposite(&there)])
        .collect();
    let once = (start.air.len() + start.tracers.len()) * calls.len();
    let times = (100_000 / once).clamp(1, 500);
    let calls = std::iter::repeat_n(calls, times).flatten().collect();
    Work { start, calls }
}

/// A version's time for what stands beside the zonal sweeps as a part of its time for these.
pub fn beside_zonal(
    other: &Beside,
    grid: Grid,
    substeps: u64,
    version: usize,
    rounds: usize,
) -> Spread {
    let zonal = zonal_work(grid, substeps);
    let start = zonal.start.clone();
    let calls = zonal
        .calls
        .iter()
        .flat_map(|sweep| (other.calls)(&start, sweep))
        .collect();
    let others = Work { start, calls };
    let has = |call: &Call| VERSIONS[version].has(call);
    if !VERSIONS[version].takes(&others.start) || !others.calls.iter().all(has) {
        return spread(vec![f64::NAN]);
    }
    let mut left = nothing_left(&zonal.start);
    let mut measured = |work: &Work, round: usize, count: u64| {
        let seconds = time(&VERSIONS[version], round, work, &mut left);
        let wanted = Answer { number: 0, count };
        assert!(left.answers.iter().all(|answer| *answer == wanted));
        seconds
    };
    let count = (other.count)(substeps);
    let ratio = |round: usize| measured(&others, round, count) / measured(&zonal, round, substeps);
    spread((0..rounds).map(ratio).collect())
}
