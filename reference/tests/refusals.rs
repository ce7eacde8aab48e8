//! Refusals 1 to 12 at both sides of their limits, and their order; 16 and 17 are in long.rs, 18
//! and 19 in emitters.rs, 20 in presses.rs, 21 in limiters.rs, 22 in books.rs.

mod common;
use common::*;
use reference::{call, Call, Grid, World};

/// Grid 4, 2, 3, 2 with air 100.
fn middle_world() -> World {
    even_world(grid(4, 2, 3, 2), 100)
}

fn expect_all(world: &World, number: u32) {
    for asked in each_call(&world.grid) {
        expect_refusal(world, &asked, number);
    }
}

fn expect_none(world: &World) {
    for asked in each_call(&world.grid) {
        let mut copy = world.clone();
        assert_eq!(checked_call(&mut copy, &asked).number, 0, "{asked:?}");
    }
}

#[test]
fn refusal_1_grid() {
    let accepted: [Grid; 8] = [
        grid(4, 2, 3, 2),
        grid(72, 2, 3, 2),
        grid(4, 1, 3, 2),
        grid(4, 44, 3, 2),
        grid(4, 2, 1, 2),
        grid(4, 2, 32, 2),
        grid(4, 2, 3, 1),
        grid(4, 2, 3, 8),
    ];
    for good in accepted {
        expect_none(&even_world(good, 100));
    }
    let refused: [Grid; 8] = [
        grid(3, 2, 3, 2),
        grid(73, 2, 3, 2),
        grid(4, 0, 3, 2),
        grid(4, 45, 3, 2),
        grid(4, 2, 0, 2),
        grid(4, 2, 33, 2),
        grid(4, 2, 3, 0),
        grid(4, 2, 3, 9),
    ];
    for bad in refused {
        let world = even_world(bad, 100);
        for asked in each_call(&middle_world().grid) {
            expect_refusal(&world, &asked, 1);
        }
    }
    expect_none(&even_world(grid(72, 44, 32, 8), 65_535));
}

#[test]
fn refusal_1_any_numbers() {
    let far = u32::MAX;
    for bad in [
        grid(far, far, far, far),
        grid(0, 0, 0, 0),
        grid(4, far, 1, 1),
    ] {
        let mut world = middle_world();
        world.grid = bad;
        for asked in each_call(&middle_world().grid) {
            expect_refusal(&world, &asked, 1);
        }
    }
}

#[test]
fn refusal_2_lengths_of_the_world() {
    let mut short_air = middle_world();
    short_air.air.pop();
    let mut long_air = middle_world();
    long_air.air.push(100);
    let mut short_tracers = middle_world();
    short_tracers.tracers.pop();
    let mut long_tracers = middle_world();
    long_tracers.tracers.push(0);
    let mut short_ledger = middle_world();
    short_ledger.ledger.pop();
    let mut long_ledger = middle_world();
    long_ledger.ledger.push(0);
    let mut no_ledger = middle_world();
    no_ledger.ledger.clear();
    let mut empty = middle_world();
    empty.air.clear();
    empty.tracers.clear();
    for world in [short_air, long_air, short_tracers, long_tracers, empty] {
        expect_all(&world, 2);
    }
    for world in [short_ledger, long_ledger, no_ledger] {
        expect_all(&world, 2);
    }
    expect_none(&middle_world());
}

#[test]
fn refusal_2_lengths_of_fluxes_and_table() {
    let world = middle_world();
    for length in [0, 3, 5] {
        expect_refusal(&world, &zonal(0, 0, &vec![0; length]), 2);
    }
    for length in [0, 4, 11, 13] {
        expect_refusal(&world, &meridional(0, &vec![0; length]), 2);
    }
    let table = even_table(3);
    expect_refusal(&world, &remap(&table[..7]), 2);
    expect_refusal(&world, &remap(&table[..6]), 2);
    expect_refusal(&world, &remap(&even_table(4)), 2);
    expect_refusal(&world, &remap(&[&table[..], &[0]].concat()), 2);
    expect_refusal(&world, &remap(&[]), 2);
}

#[test]
fn refusal_3_air() {
    for place in [0, 13, 29] {
        for (air, good) in [(0, false), (1, true), (65_535, true), (65_536, false)] {
            let mut world = middle_world();
            world.air[place] = air;
            if good {
                expect_accepted(&world, &Call::Load, 0);
            } else {
                expect_all(&world, 3);
            }
        }
    }
    let mut world = middle_world();
    world.air[7] = u32::MAX;
    expect_all(&world, 3);
}

#[test]
fn refusal_4_tracer_totals() {
    for tracer in [0, 1] {
        let mut world = middle_world();
        world.tracers[30 * tracer] = MOST_TRACER as u32 - 5;
        world.tracers[30 * tracer + 29] = 5;
        balance(&mut world);
        expect_none(&world);
        world.tracers[30 * tracer + 29] = 6;
        balance(&mut world);
        expect_all(&world, 4);
    }
    // Each tracer has its own total.
    let mut world = middle_world();
    world.tracers[29] = MOST_TRACER as u32;
    world.tracers[30] = MOST_TRACER as u32;
    balance(&mut world);
    expect_none(&world);
    // A sum that would be small in 32 bits.
    let mut world = middle_world();
    world.tracers[0] = u32::MAX;
    world.tracers[1] = 1;
    expect_all(&world, 4);
    world.tracers = vec![u32::MAX; 60];
    expect_all(&world, 4);
}

#[test]
fn refusal_5_indices() {
    let world = middle_world();
    for (tracer, cell, good) in [
        (1, 29, true),
        (2, 29, false),
        (1, 30, false),
        (u32::MAX, 0, false),
        (0, u32::MAX, false),
    ] {
        for asked in [
            emission(tracer, cell, 0),
            withdrawal(tracer, cell, 0),
            Call::Cell { tracer, cell },
        ] {
            if good {
                expect_accepted(&world, &asked, 0);
            } else {
                expect_refusal(&world, &asked, 5);
            }
        }
    }
    expect_accepted(&world, &Call::Total { tracer: 1 }, 0);
    expect_refusal(&world, &Call::Total { tracer: 2 }, 5);
    expect_refusal(&world, &Call::Total { tracer: u32::MAX }, 5);
    expect_accepted(&world, &zonal(2, 1, &[0; 4]), 1);
    expect_refusal(&world, &zonal(3, 1, &[0; 4]), 5);
    expect_refusal(&world, &zonal(2, 2, &[0; 4]), 5);
    expect_refusal(&world, &zonal(u32::MAX, u32::MAX, &[0; 4]), 5);
    expect_accepted(&world, &meridional(2, &[0; 12]), 1);
    expect_refusal(&world, &meridional(3, &[0; 12]), 5);
    expect_refusal(&world, &meridional(u32::MAX, &[0; 12]), 5);
}

#[test]
fn refusal_6_emission() {
    let mut world = middle_world();
    world.tracers[0] = 1_000;
    world.tracers[30] = 1_000_000;
    balance(&mut world);
    let most = MOST_TRACER as u32 - 1_000;
    let after = expect_accepted(&world, &emission(0, 29, most), 0);
    assert_eq!(after.tracers[29], most);
    expect_refusal(&world, &emission(0, 29, most + 1), 6);
    expect_refusal(&world, &emission(0, 29, u32::MAX), 6);
    expect_refusal(&world, &emission(0, 0, u32::MAX - 999), 6);
}

#[test]
fn refusal_7_withdrawal() {
    let mut world = middle_world();
    world.tracers[30 + 4] = 1_000;
    world.tracers[30 + 5] = 9_999;
    balance(&mut world);
    let after = expect_accepted(&world, &withdrawal(1, 4, 1_000), 0);
    assert_eq!(after.tracers[34], 0);
    expect_refusal(&world, &withdrawal(1, 4, 1_001), 7);
    expect_refusal(&world, &withdrawal(1, 4, u32::MAX), 7);
    expect_accepted(&world, &withdrawal(0, 4, 0), 0);
    expect_refusal(&world, &withdrawal(0, 4, 1), 7);
}

#[test]
fn refusal_8_zonal_fluxes() {
    let world = even_world(grid(4, 1, 1, 1), 65_535);
    for sign in [1, -1] {
        expect_accepted(&world, &zonal(0, 0, &[sign * 1_048_560; 4]), 16);
        for i in 0..4 {
            let mut fluxes = [sign * 1_048_560; 4];
            fluxes[i] = sign * 1_048_561;
            expect_refusal(&world, &zonal(0, 0, &fluxes), 8);
        }
    }
    expect_refusal(&world, &zonal(0, 0, &[i32::MIN; 4]), 8);
    expect_refusal(&world, &zonal(0, 0, &[i32::MAX; 4]), 8);
}

#[test]
fn refusal_8_meridional_fluxes() {
    let world = even_world(grid(4, 1, 1, 1), 65_535);
    // North in column 0 and south in column 1, through both faces.
    let most = [65_535, -65_535, 0, 0, 65_535, -65_535, 0, 0];
    expect_accepted(&world, &meridional(0, &most), 1);
    for (f, flux) in [(0, 65_536), (1, -65_536), (6, i32::MIN), (7, i32::MAX)] {
        let mut fluxes = most;
        fluxes[f] = flux;
        expect_refusal(&world, &meridional(0, &fluxes), 8);
    }
}

#[test]
fn refusal_9_zonal() {
    let world = row_world([100; 4], [1, 2, 3, 4]);
    expect_accepted(&world, &zonal(0, 0, &[0, 99, 0, 0]), 1);
    expect_refusal(&world, &zonal(0, 0, &[0, 100, 0, 0]), 9);
    // A cell may give all its air if as much comes in.
    expect_accepted(&world, &zonal(0, 0, &[100; 4]), 1);
    expect_accepted(&world, &zonal(0, 0, &[101; 4]), 2);
    // Outflow is the sum through both faces.
    expect_accepted(&world, &zonal(0, 0, &[50, -49, 50, -49]), 1);
    expect_refusal(&world, &zonal(0, 0, &[50, -49, 50, -51]), 9);
    // The most air.
    let full = row_world([65_535, 100, 65_534, 100], [0; 4]);
    expect_accepted(&full, &zonal(0, 0, &[0, 1, 0, 0]), 1);
    expect_refusal(&full, &zonal(0, 0, &[0, 2, 0, 0]), 9);
    expect_refusal(&full, &zonal(0, 0, &[0, 0, 0, 1]), 9);
}

#[test]
fn refusal_9_divergence_at_its_limit() {
    // Column 0 gives through both faces, and its air afterwards is 1 or 0.
    let world = row_world([100; 4], [0; 4]);
    expect_accepted(&world, &zonal(0, 0, &[50, 0, 0, -49]), 1);
    expect_refusal(&world, &zonal(0, 0, &[50, 0, 0, -50]), 9);
}

#[test]
fn refusal_10_meridional() {
    let world = row_world([100; 4], [1, 2, 3, 4]);
    // A row cell's air afterwards 1 and 0.
    let through = |south: i32, north: i32| meridional(0, &[south, 0, 0, 0, north, 0, 0, 0]);
    expect_accepted(&world, &through(-50, 49), 1);
    expect_refusal(&world, &through(-50, 50), 10);
    // A row cell's outflow 100 and 101 with inflow.
    expect_accepted(&world, &through(50, 100), 1);
    expect_refusal(&world, &through(50, 101), 10);
    // A cap's outflow is the sum of its faces, and one unit must remain.
    expect_accepted(&world, &meridional(0, &[25, 25, 25, 24, 0, 0, 0, 0]), 1);
    expect_refusal(&world, &meridional(0, &[25, 25, 25, 25, 0, 0, 0, 0]), 10);
    expect_accepted(&world, &meridional(0, &[0, 0, 0, 0, -25, -25, -25, -24]), 1);
    expect_refusal(
        &world,
        &meridional(0, &[0, 0, 0, 0, -25, -25, -25, -25]),
        10,
    );
    // With inflow a cap may give all its air, and not more.
    expect_accepted(&world, &meridional(0, &[50, 50, -50, -49, 0, 0, 0, 0]), 1);
    expect_refusal(&world, &meridional(0, &[50, 51, -50, -50, 0, 0, 0, 0]), 10);
    // The most air in a cap and in a row cell.
    let mut full = row_world([65_534, 100, 100, 100], [0; 4]);
    full.air[0] = 65_533;
    expect_accepted(&full, &meridional(0, &[0, -1, -1, 0, 0, 0, 0, 0]), 1);
    expect_refusal(&full, &meridional(0, &[0, -1, -1, -1, 0, 0, 0, 0]), 10);
    expect_accepted(&full, &through(1, 0), 1);
    expect_refusal(&full, &through(2, 0), 10);
}

#[test]
fn refusal_11_table() {
    let world = even_world(grid(4, 1, 2, 1), 100);
    let good = [0, 0, 0, 32_768, 0, 65_536];
    expect_accepted(&world, &remap(&good), 12);
    for (place, number) in [
        (0, 1),
        (1, 1),
        (4, 1),
        (5, 65_535),
        (5, 65_537),
        (5, 0),
        (2, 2_097_121),
        (2, u32::MAX),
        (3, 65_537),
        (3, u32::MAX),
    ] {
        let mut table = good;
        table[place] = number;
        expect_refusal(&world, &remap(&table), 11);
    }
    // The largest a and the largest b are no refusal 11; their edges don't rise.
    for (place, number) in [(2, 2_097_120), (3, 65_536)] {
        let mut table = good;
        table[place] = number;
        expect_refusal(&world, &remap(&table), 12);
    }
}

#[test]
fn refusal_12_edges() {
    let world = even_world(grid(4, 1, 2, 1), 100);
    let with_a = |a: u32| remap(&[0, 0, a, 0, 0, 65_536]);
    expect_refusal(&world, &with_a(0), 12);
    expect_accepted(&world, &with_a(1), 6 * 3);
    expect_accepted(&world, &with_a(199), 6 * 3);
    expect_refusal(&world, &with_a(200), 12);
    expect_refusal(&world, &with_a(201), 12);
    // One column is enough: the last one has P = 150.
    let mut uneven = world.clone();
    uneven.air[11] = 50;
    expect_accepted(&uneven, &with_a(149), 6 * 3);
    expect_refusal(&uneven, &with_a(150), 12);
    // A new layer of 65,535 and of 65,536.
    let large = even_world(grid(4, 1, 2, 1), 40_000);
    expect_accepted(&large, &with_a(65_535), 6 * 3);
    expect_refusal(&large, &with_a(65_536), 12);
    expect_accepted(&large, &with_a(80_000 - 65_535), 6 * 3);
    expect_refusal(&large, &with_a(80_000 - 65_536), 12);
}

#[test]
fn edges_must_rise_though_b_falls() {
    let world = even_world(grid(4, 1, 3, 1), 100);
    let table = |a: u32| remap(&[0, 0, 10, 32_768, a, 16_384, 0, 65_536]);
    // Edges 0, 160, a + 75, 300.
    expect_refusal(&world, &table(85), 12);
    let after = expect_accepted(&world, &table(86), 6 * 5);
    assert_eq!(after.air[0], 160);
    assert_eq!(after.air[6], 1);
    assert_eq!(after.air[12], 139);
}

/// A call and world at which every place of checking from `first` on applies.
fn world_with_faults_from(first: u32) -> World {
    let mut world = even_world(grid(4, 1, 2, 1), 100);
    world.tracers[0] = if first <= 4 { u32::MAX } else { 0 };
    world.air[0] = if first <= 3 { 0 } else { 100 };
    if first <= 2 {
        world.air.pop();
    }
    if first <= 1 {
        world.grid.w = 3;
    }
    world
}

#[test]
fn refusals_come_in_row_order() {
    for first in 1..=5 {
        let world = world_with_faults_from(first);
        for asked in [
            emission(9, 99, u32::MAX),
            withdrawal(9, 99, u32::MAX),
            zonal(9, 9, &[i32::MIN; 4]),
            long_zonal(9, 9, &[i32::MIN; 4]),
            count_zonal(9, 9, &[i32::MIN; 4]),
            zonal_with_count(9, 9, 0, &[i32::MIN; 4]),
            meridional(9, &[i32::MIN; 8]),
            Call::Total { tracer: 9 },
            Call::Cell {
                tracer: 9,
                cell: 99,
            },
            add_emitter(9, 99, 0, u32::MAX),
            remove_emitter(9, 0),
            tick(9),
            units_a_tick(9),
            set_limiter(9, 0, 1, 0),
        ] {
            expect_refusal(&world, &asked, first);
        }
        let late = remap(&[1, 1, 9_999_999, 99_999, 1, 1]);
        expect_refusal(&world, &late, if first == 5 { 11 } else { first });
    }
    let good = world_with_faults_from(5);
    // The length of fluxes and table comes before air, tracers, indices and sizes.
    let bad = world_with_faults_from(3);
    expect_refusal(&bad, &zonal(9, 9, &[i32::MIN; 3]), 2);
    expect_refusal(&bad, &meridional(9, &[i32::MIN; 7]), 2);
    expect_refusal(&bad, &remap(&[1; 5]), 2);
    expect_refusal(&good, &zonal(9, 9, &[i32::MIN; 3]), 2);
    // 5 before 8, 8 before 9 and 10, 11 before 12.
    expect_refusal(&good, &zonal(0, 1, &[i32::MIN; 4]), 5);
    expect_refusal(&good, &zonal(0, 0, &[1_048_561, 500, 0, 0]), 8);
    expect_refusal(&good, &zonal(0, 0, &[1_048_560, 500, 0, 0]), 9);
    expect_refusal(&good, &meridional(2, &[i32::MIN; 8]), 5);
    expect_refusal(&good, &meridional(0, &[65_536; 8]), 8);
    expect_refusal(&good, &meridional(0, &[65_535; 8]), 10);
    expect_refusal(&good, &remap(&[0, 0, 0, 0, 0, 65_535]), 11);
    expect_refusal(&good, &remap(&[0, 0, 0, 0, 0, 65_536]), 12);
}

#[test]
fn any_numbers_and_lengths_never_panic() {
    let mut random = Random::new(12);
    let length = |random: &mut Random| random.between(0, 40) as usize;
    for _ in 0..20_000 {
        let mut world = random_world(&mut random);
        let mut asked = random_call(&mut random, &world);
        if random.one_in(4) {
            world.air.truncate(length(&mut random));
        }
        if random.one_in(4) {
            let place = length(&mut random) % world.tracers.len();
            world.tracers[place] = (random.next() as u32) >> random.between(0, 31);
        }
        if random.one_in(4) {
            let place = length(&mut random) % world.ledger.len();
            world.ledger[place] = (random.next() as u32) >> random.between(0, 31);
        }
        if random.one_in(8) {
            world.ledger.truncate(length(&mut random));
        }
        if random.one_in(4) {
            world.grid.k = (random.next() as u32) >> random.between(0, 31);
        }
        match &mut asked {
            Call::Zonal { fluxes, .. }
            | Call::LongZonal { fluxes, .. }
            | Call::CountZonal { fluxes, .. }
            | Call::ZonalWithCount { fluxes, .. }
            | Call::Meridional { fluxes, .. }
                if random.one_in(2) =>
            {
                for flux in fluxes.iter_mut() {
                    *flux = (random.next() as i32) >> random.between(0, 31);
                }
            }
            Call::Remap { table } if random.one_in(2) => {
                for number in table.iter_mut() {
                    *number = (random.next() as u32) >> random.between(0, 31);
                }
            }
            _ => {}
        }
        let answer = checked_call(&mut world, &asked);
        assert!(answer.number <= 12 || (16..=22).contains(&answer.number));
        if answer.number == 0 {
            assert_eq!(call(&mut world, &Call::Load), accepted(0));
        }
    }
}
