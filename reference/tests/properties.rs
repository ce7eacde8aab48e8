//! The four properties of demand 3, the smallest count and the remap's count, on random lists.

mod common;
use common::books::{put_books, random_books};
use common::limits::{put_limits, random_limits};
use common::range::{self, Written};
use common::*;
use reference::{call, Answer, Call, Grid, World};

/// The amounts of one tracer.
fn tracer(world: &World, t: usize) -> &[u32] {
    let cells = cells(&world.grid);
    &world.tracers[t * cells..(t + 1) * cells]
}

fn sum(amounts: &[u32]) -> u64 {
    amounts.iter().map(|&amount| u64::from(amount)).sum()
}

/// "A gas has the whole-number ratio z at a point if T = z·M in every cell."
fn whole_ratio(world: &World, t: usize) -> Option<u64> {
    let tracer = tracer(world, t);
    let z = u64::from(tracer[0]) / u64::from(world.air[0]);
    let mut pairs = tracer.iter().zip(&world.air);
    pairs
        .all(|(&t, &m)| u64::from(t) == z * u64::from(m))
        .then_some(z)
}

fn tracers(grid: &Grid) -> std::ops::Range<usize> {
    0..grid.n as usize
}

/// The range after a remap, and its count.
fn expect_remap_range_and_count(before: &World, after: &World, count: u64) {
    let (written, pairs) = range::of_remap(before, after);
    written.iter().for_each(Written::expect_claims);
    assert_eq!(count, pairs);
    // "The old bounds then follow from it."
    let (k, c) = (u64::from(before.grid.k), layer_cells(&before.grid) as u64);
    assert!(k * c <= count && count <= (2 * k - 1) * c);
}

/// Part s of n of the fluxes, with its own arithmetic.
fn part(fluxes: &[i32], s: i64, n: i64) -> Vec<i32> {
    let size = |size: i64| (s * size).div_euclid(n) - ((s - 1) * size).div_euclid(n);
    fluxes
        .iter()
        .map(|&flux| match i64::from(flux) {
            f if f < 0 => -(size(-f) as i32),
            f => size(f) as i32,
        })
        .collect()
}

/// Whether n serves for a row, with its own arithmetic.
fn serves(row_air: &[u32], fluxes: &[i32], n: i64) -> bool {
    let columns = row_air.len();
    let mut air: Vec<i64> = row_air.iter().map(|&m| i64::from(m)).collect();
    for s in 1..=n {
        let part = part(fluxes, s, n);
        let old = air.clone();
        for i in 0..columns {
            let east = i64::from(part[i]);
            let west = i64::from(part[(i + columns - 1) % columns]);
            if east.max(0) - west.min(0) > old[i] {
                return false;
            }
            air[i] += west - east;
        }
        if air.iter().any(|&m| !(1..=65_535).contains(&m)) {
            return false;
        }
    }
    true
}

/// The smallest count that serves for a row of the world.
fn smallest(world: &World, layer: u32, row: u32, fluxes: &[i32]) -> Option<i64> {
    let grid = &world.grid;
    let first = layer as usize * layer_cells(grid) + 1 + (row * grid.w) as usize;
    let row_air = &world.air[first..first + grid.w as usize];
    (1..=16).find(|&n| serves(row_air, fluxes, n))
}

/// The smallest count, the range after each substep, and the sum of the substeps. Each substep
/// is made as a sweep of its own, with the part as its fluxes.
fn expect_zonal(
    before: &World,
    after: &World,
    layer: u32,
    row: u32,
    fluxes: &[i32],
    answer: Answer,
) {
    let Some(n) = smallest(before, layer, row, fluxes) else {
        assert_eq!(answer, refused(9));
        return;
    };
    assert_eq!(answer, accepted(n as u64));
    let mut world = before.clone();
    for s in 1..=n {
        let old = world.clone();
        let substep = zonal(layer, row, &part(fluxes, s, n));
        assert_eq!(call(&mut world, &substep), accepted(1));
        let written = range::of_zonal_substep(&old, &world, layer, row);
        written.iter().for_each(Written::expect_claims);
    }
    assert_eq!(world, *after);
}

fn expect_call_properties(before: &World, after: &World, asked: &Call, answer: Answer) {
    match asked {
        Call::Zonal { layer, row, fluxes } if answer.number == 0 || answer.number == 9 => {
            expect_zonal(before, after, *layer, *row, fluxes, answer);
        }
        Call::CountZonal { layer, row, fluxes } if answer.number == 0 || answer.number == 9 => {
            let count = smallest(before, *layer, *row, fluxes);
            assert_eq!(answer, count.map_or(refused(9), |n| accepted(n as u64)));
            assert_eq!(before, after);
        }
        Call::ZonalWithCount {
            layer,
            row,
            given,
            fluxes,
        } if [0, 9, 20].contains(&answer.number) => match smallest(before, *layer, *row, fluxes) {
            Some(n) if n != i64::from(*given) => assert_eq!(answer, refused(20)),
            _ => expect_zonal(before, after, *layer, *row, fluxes, answer),
        },
        Call::LongZonal { layer, row, fluxes } if answer.number == 0 => {
            assert_eq!(answer.count, 0);
            let written = range::of_long_zonal(before, after, *layer, *row, fluxes);
            written.iter().for_each(Written::expect_claims);
        }
        Call::Meridional { layer, .. } if answer.number == 0 => {
            assert_eq!(answer.count, 1);
            let written = range::of_meridional(before, after, *layer);
            written.iter().for_each(Written::expect_claims);
        }
        Call::Remap { .. } if answer.number == 0 => {
            expect_remap_range_and_count(before, after, answer.count);
        }
        _ => {}
    }
}

/// A tracer's block of the ledger.
fn block(world: &World, t: usize) -> &[u32] {
    &world.ledger[BLOCK * t..BLOCK * (t + 1)]
}

/// The units of a tracer's standing emitters, summed.
fn standing_units(world: &World, t: usize) -> u64 {
    let block = block(world, t);
    let units = (0..block[0] as usize).map(|i| block[5 + 3 * i]);
    units.map(u64::from).sum()
}

/// What an accepted call adds to a tracer's total: "a tick counts there as an emission of that
/// sum".
fn added(before: &World, asked: &Call, answer: Answer, t: usize) -> i64 {
    if answer.number != 0 || named_tracer(asked) != Some(t) {
        return 0;
    }
    match *asked {
        Call::Emission { amount, .. } => i64::from(amount),
        Call::Withdrawal { amount, .. } => -i64::from(amount),
        Call::Tick { .. } => standing_units(before, t) as i64,
        _ => 0,
    }
}

/// In a world reached by calls every reading of the units a tick is accepted, and it "always
/// equals the sum over the emitters present".
fn expect_readings(world: &World) {
    for t in tracers(&world.grid) {
        let sum = standing_units(world, t);
        expect_accepted(world, &units_a_tick(t as u32), sum);
    }
}

/// The tracer that a call names.
fn named_tracer(asked: &Call) -> Option<usize> {
    match *asked {
        Call::Emission { tracer, .. }
        | Call::Withdrawal { tracer, .. }
        | Call::Total { tracer }
        | Call::Cell { tracer, .. }
        | Call::AddEmitter { tracer, .. }
        | Call::RemoveEmitter { tracer, .. }
        | Call::Tick { tracer }
        | Call::UnitsATick { tracer }
        | Call::SetLimiter { tracer, .. } => Some(tracer as usize),
        _ => None,
    }
}

/// How often each case was met, so that the tests can't pass by meeting none.
#[derive(Default, Debug)]
struct Met {
    accepted_sweeps: u32,
    many_substeps: u32,
    accepted_long: u32,
    accepted_counts: u32,
    accepted_presses: u32,
    presses_of_many_substeps: u32,
    wrong_counts: u32,
    accepted_meridional: u32,
    accepted_remaps: u32,
    emitters_added: u32,
    emitters_removed: u32,
    ticks: u32,
    limiters_set: u32,
    ratios_kept: u32,
    refused: u32,
}

impl Met {
    fn note(&mut self, asked: &Call, answer: Answer) {
        match asked {
            _ if answer.number == 20 => self.wrong_counts += 1,
            _ if answer.number != 0 => self.refused += 1,
            Call::Zonal { .. } => {
                self.accepted_sweeps += 1;
                self.many_substeps += u32::from(answer.count > 1);
            }
            Call::LongZonal { .. } => self.accepted_long += 1,
            Call::CountZonal { .. } => self.accepted_counts += 1,
            Call::ZonalWithCount { .. } => {
                self.accepted_presses += 1;
                self.presses_of_many_substeps += u32::from(answer.count > 1);
            }
            Call::Meridional { .. } => self.accepted_meridional += 1,
            Call::Remap { .. } => self.accepted_remaps += 1,
            Call::AddEmitter { .. } => self.emitters_added += 1,
            Call::RemoveEmitter { .. } => self.emitters_removed += 1,
            Call::Tick { .. } => self.ticks += 1,
            Call::SetLimiter { .. } => self.limiters_set += 1,
            _ => {}
        }
    }
}

/// A random list on one world, with conservation, ratios and ranges at each point.
fn run_list(random: &mut Random, met: &mut Met, random_world: fn(&mut Random) -> World) {
    let mut world = random_world(random);
    assert_eq!(call(&mut world, &Call::Load), accepted(0));
    let total_air = sum(&world.air);
    let mut totals: Vec<i64> = tracers(&world.grid)
        .map(|t| sum(tracer(&world, t)) as i64)
        .collect();
    for _ in 0..16 {
        let asked = random_call(random, &world);
        let before = world.clone();
        let answer = checked_call(&mut world, &asked);
        met.note(&asked, answer);
        expect_call_properties(&before, &world, &asked, answer);
        expect_readings(&world);
        assert_eq!(sum(&world.air), total_air);
        for t in tracers(&world.grid) {
            totals[t] += added(&before, &asked, answer, t);
            assert_eq!(sum(tracer(&world, t)) as i64, totals[t]);
            let ratio = whole_ratio(&before, t);
            if ratio.is_some() && added(&before, &asked, answer, t) == 0 {
                assert_eq!(whole_ratio(&world, t), ratio);
                met.ratios_kept += 1;
            }
        }
    }
}

/// Lists on worlds of this kind; each kind of sweep, and the remap, is accepted often.
fn run_lists_of(random_world: fn(&mut Random) -> World, seed: u64) -> Met {
    let mut random = Random::new(seed);
    let mut met = Met::default();
    for _ in 0..8_000 {
        run_list(&mut random, &mut met, random_world);
    }
    println!("{met:?}");
    assert!(met.accepted_sweeps > 5_000);
    assert!(met.many_substeps > 2_000);
    assert!(met.accepted_long > 5_000);
    assert!(met.accepted_meridional > 2_000);
    assert!(met.accepted_remaps > 2_000);
    assert!(met.limiters_set > 5_000);
    met
}

#[test]
fn conservation_ratio_and_range_on_random_lists() {
    let met = run_lists_of(random_world, 1);
    assert!(met.accepted_counts > 3_000);
    assert!(met.accepted_presses > 5_000);
    assert!(met.presses_of_many_substeps > 2_000);
    assert!(met.wrong_counts > 1_000);
    assert!(met.accepted_meridional > 5_000);
    assert!(met.accepted_remaps > 3_000);
    assert!(met.emitters_added > 5_000);
    assert!(met.emitters_removed > 200);
    assert!(met.ticks > 3_000);
    assert!(met.ratios_kept > 5_000);
    assert!(met.refused > 5_000);
}

#[test]
fn lists_on_worlds_of_thin_gases() {
    run_lists_of(random_thin_world, 61);
}

#[test]
fn lists_on_worlds_at_the_limits() {
    run_lists_of(random_extreme_world, 62);
}

/// The same list on two worlds that differ in all tracers but `kept`, in their limiters and in their
/// books.
fn run_twin_lists(random: &mut Random) {
    let mut world = random_world(random);
    let kept = random.next() as usize % world.grid.n as usize;
    let mut twin = world.clone();
    twin.tracers = tracers(&world.grid)
        .flat_map(|t| {
            if t == kept {
                tracer(&world, t).to_vec()
            } else {
                random_tracer(random, &world.air)
            }
        })
        .collect();
    for t in tracers(&world.grid).filter(|&t| t != kept) {
        let other = random_limits(random, &twin, t);
        put_limits(&mut twin, t, other);
        let other = random_books(random, sum(tracer(&twin, t)));
        put_books(&mut twin, t, other);
    }
    for _ in 0..12 {
        let asked = random_call(random, &world);
        let answer = call(&mut world, &asked);
        let twin_answer = call(&mut twin, &asked);
        assert_eq!(world.air, twin.air);
        assert_eq!(tracer(&world, kept), tracer(&twin, kept));
        assert_eq!(block(&world, kept), block(&twin, kept));
        if named_tracer(&asked).is_none_or(|t| t == kept) {
            assert_eq!(answer, twin_answer);
        }
    }
}

#[test]
fn a_tracer_does_not_depend_on_the_others() {
    let mut random = Random::new(2);
    for _ in 0..4_000 {
        run_twin_lists(&mut random);
    }
}

#[test]
fn the_largest_grid() {
    let mut random = Random::new(3);
    let grid = grid(72, 44, 32, 8);
    let air: Vec<u32> = (0..cells(&grid))
        .map(|_| random.amount(1_000, 2_000))
        .collect();
    let amounts = (0..8).flat_map(|_| random_tracer(&mut random, &air));
    let tracers = amounts.collect();
    let mut world = world_of(grid, air, tracers);
    let totals: Vec<u64> = (0..8).map(|t| sum(tracer(&world, t))).collect();
    for _ in 0..40 {
        let asked = random_call(&mut random, &world);
        let before = world.clone();
        let answer = checked_call(&mut world, &asked);
        expect_call_properties(&before, &world, &asked, answer);
        if added(&before, &asked, answer, named_tracer(&asked).unwrap_or(0)) != 0 {
            world = before;
        }
        assert_eq!(
            totals,
            (0..8).map(|t| sum(tracer(&world, t))).collect::<Vec<_>>()
        );
    }
}
