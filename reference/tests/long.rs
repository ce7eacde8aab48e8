//! Document 02's long zonal sweep: the request's numbers, its refusals and their order, shifts.

mod common;
use common::range::{self, Written};
use common::*;
use reference::{call, script, World};

/// The sweep is accepted with count 0 and leaves this row; the caps stay as they were.
fn expect_row(world: &World, fluxes: [i32; 4], air: [u32; 4], tracer: [u32; 4]) {
    let after = expect_accepted(world, &long_zonal(0, 0, &fluxes), 0);
    assert_eq!(after, row_world(air, tracer));
}

fn expect_number(world: &World, fluxes: [i32; 4], number: u32) {
    expect_refusal(world, &long_zonal(0, 0, &fluxes), number);
}

#[test]
fn half_a_cell_east() {
    // The mark at 150 is 0 + 37 (37.5 cut): the piece is from the low end, and 63 go east.
    expect_row(
        &row_of_four(),
        [0, 50, 0, 0],
        [100, 50, 150, 100],
        [0, 37, 263, 100],
    );
}

#[test]
fn a_whole_turn_changes_nothing() {
    for flux in [400, -400, 0] {
        expect_row(&row_of_four(), [flux; 4], [100; 4], [0, 100, 200, 100]);
    }
}

#[test]
fn far_to_the_west() {
    expect_row(
        &row_of_four(),
        [-250, -250, -230, -270],
        [80, 100, 80, 140],
        [122, 38, 19, 221],
    );
}

#[test]
fn the_range_needs_more_than_one_unit() {
    // No old ratio passes 1, and cell 2 has air 14 and tracer 15 afterwards: 15 < 1 · 14 + 1 is
    // false, 4 · 15 < 4 · 1 · 14 + 5 is true.
    expect_row(
        &row_world([3, 536, 13, 7], [0, 535, 13, 7]),
        [0, 1, 0, 0],
        [3, 535, 14, 7],
        [0, 533, 15, 7],
    );
}

#[test]
fn refusals_in_order() {
    let world = row_of_four();
    expect_number(&world, [401, 400, 400, 400], 16);
    expect_number(&world, [-400, -400, -401, -400], 16);
    expect_number(&world, [100, 0, 0, 0], 17);
    expect_row(
        &world,
        [99, 0, 0, 0],
        [1, 199, 100, 100],
        [0, 100, 200, 100],
    );
    expect_number(&world, [401, 0, 0, 0], 16);
    for sign in [1, -1] {
        expect_number(&world, [0, 0, 0, sign * 1_048_561], 8);
        expect_number(&world, [0, 0, 0, sign * 1_048_560], 16);
    }
    expect_number(&world, [i32::MIN; 4], 8);
    expect_refusal(&world, &long_zonal(1, 0, &[i32::MIN; 4]), 5);
    expect_refusal(&world, &long_zonal(0, 1, &[401; 4]), 5);
    expect_refusal(&world, &long_zonal(0, 0, &[i32::MIN; 3]), 2);
    expect_refusal(&world, &long_zonal(9, 9, &[0; 5]), 2);
}

#[test]
fn air_afterwards_at_its_limits() {
    let full = row_world([65_535, 100, 65_534, 100], [0, 1, 2, 3]);
    // 99 of the 100 units of air from the low end have floor(0.99 · 1) of the tracer.
    expect_row(&full, [0, 1, 0, 0], [65_535, 99, 65_535, 100], [0, 0, 3, 3]);
    expect_number(&full, [0, 2, 0, 0], 17);
    expect_number(&full, [0, 0, 0, 1], 17);
    expect_number(&full, [0, 100, 100, 0], 17);
    // The row's air alone bounds a flux, not the zonal limit: 4 · 65,535 is less than 1,048,560.
    let row_air = 4 * 65_535;
    let largest = row_world([65_535; 4], [1, 2, 3, 4]);
    expect_row(&largest, [row_air; 4], [65_535; 4], [1, 2, 3, 4]);
    expect_number(&largest, [row_air + 1; 4], 16);
}

#[test]
fn one_row_of_all_tracers_in_one_layer() {
    let mut world = even_world(grid(4, 3, 2, 2), 100);
    for (place, tracer) in world.tracers.iter_mut().enumerate() {
        *tracer = place as u32 * 7 % 100;
    }
    balance(&mut world);
    let after = expect_accepted(&world, &long_zonal(1, 2, &[100; 4]), 0);
    // Row 2 of layer 1 starts at 14 + 1 + 2·4, that of tracer 1 28 later: one column east.
    for first in [23, 28 + 23] {
        world.tracers[first..first + 4].rotate_right(1);
    }
    assert_eq!(after, world);
}

#[test]
fn a_row_of_72_that_no_count_serves() {
    let mut world = even_world(grid(72, 1, 1, 1), 100);
    for (place, tracer) in world.tracers.iter_mut().enumerate() {
        *tracer = place as u32;
    }
    balance(&mut world);
    expect_refusal(&world, &zonal(0, 0, &[1_601; 72]), 9);
    expect_accepted(&world, &long_zonal(0, 0, &[1_601; 72]), 0);
    expect_accepted(&world, &long_zonal(0, 0, &[-7_200; 72]), 0);
    expect_refusal(&world, &long_zonal(0, 0, &[7_201; 72]), 16);
}

/// With marks at the old faces, the cells move whole, by any number of columns.
#[test]
fn shifts_by_whole_cells_are_exact() {
    let mut random = Random::new(21);
    for _ in 0..2_000 {
        let air: Vec<u32> = (0..4).map(|_| random.amount(1, 65_535)).collect();
        let tracer: Vec<u32> = (0..4).map(|_| random.amount(0, 60_000_000)).collect();
        let columns = random.between(-4, 4);
        // Flux i is the air that is to pass face i: what lies between it and its new place.
        let before = |i: i64| -> i64 {
            let turn: i64 = air.iter().map(|&m| i64::from(m)).sum();
            let whole = air[..i.rem_euclid(4) as usize].iter();
            i.div_euclid(4) * turn + whole.map(|&m| i64::from(m)).sum::<i64>()
        };
        let fluxes: Vec<i32> = (1..=4)
            .map(|i| (before(i) - before(i - columns)) as i32)
            .collect();
        let row = |list: &[u32]| -> [u32; 4] { list.try_into().unwrap() };
        let mut moved = (air.clone(), tracer.clone());
        moved.0.rotate_right(columns.rem_euclid(4) as usize);
        moved.1.rotate_right(columns.rem_euclid(4) as usize);
        let world = row_world(row(&air), row(&tracer));
        let fluxes: [i32; 4] = fluxes.try_into().unwrap();
        expect_row(&world, fluxes, row(&moved.0), row(&moved.1));
    }
}

/// "within two units of the range" (document 02), and since thin gases "after a remap or a long
/// sweep within one and a quarter".
#[test]
fn cells_stay_within_one_and_a_quarter() {
    let mut random = Random::new(22);
    let (mut turned, mut accepted) = (0, 0);
    for number in 0..30_000 {
        let world = match number % 3 {
            0 => random_world(&mut random),
            1 => random_thin_world(&mut random),
            _ => random_extreme_world(&mut random),
        };
        let (layer, row, fluxes) = random_row(&mut random, &world, random_long_fluxes);
        let mut after = world.clone();
        if call(&mut after, &long_zonal(layer, row, &fluxes)).number == 0 {
            let written = range::of_long_zonal(&world, &after, layer, row, &fluxes);
            written.iter().for_each(Written::expect_claims);
            let most = world.air.iter().max().unwrap();
            turned += u32::from(fluxes.iter().any(|flux| flux.unsigned_abs() > *most));
            accepted += 1;
        }
    }
    assert!(accepted > 15_000 && turned > 8_000, "{accepted} {turned}");
}

/// The inputs of the cases y1-1, y1-2, .. of the model's table, and what this implementation answers.
#[test]
fn cases_of_the_long_sweep_answer_as_stored() {
    let outcome = script::run(include_str!("../cases/long.txt"));
    assert_eq!(outcome.error, None);
    assert_eq!(outcome.lines, include_str!("../cases/long.out"));
}
