//! Document 01's marked cases m1 to m12, and a few more worked out by hand.

mod common;
use common::*;
use reference::scheme::{self, part, piece_from_high_end, piece_from_low_end, ratio, SCALE};
use reference::{Call, Limiter, World};

/// The sweep is accepted with this count and leaves this row; the caps stay as they were.
fn expect_row(world: &World, fluxes: [i32; 4], count: u64, air: [u32; 4], tracer: [u32; 4]) {
    let after = expect_accepted(world, &zonal(0, 0, &fluxes), count);
    assert_eq!(after, row_world(air, tracer));
}

#[test]
fn m1_piece_from_the_high_end() {
    expect_row(
        &row_of_four(),
        [0, 50, 0, 0],
        1,
        [100, 50, 150, 100],
        [0, 38, 262, 100],
    );
}

#[test]
fn m2_piece_from_the_low_end() {
    expect_row(
        &row_of_four(),
        [-50, 0, 0, 0],
        1,
        [150, 50, 100, 100],
        [37, 63, 200, 100],
    );
}

#[test]
fn m3_the_peak_gives_a_plain_piece() {
    expect_row(
        &row_of_four(),
        [0, 0, 50, 0],
        1,
        [100, 100, 50, 150],
        [0, 100, 100, 200],
    );
}

#[test]
fn m4_one_unit_remains() {
    expect_row(
        &row_of_four(),
        [0, 99, 0, 0],
        1,
        [100, 1, 199, 100],
        [0, 1, 299, 100],
    );
}

#[test]
fn m5_the_cell_would_empty() {
    expect_refusal(&row_of_four(), &zonal(0, 0, &[0, 100, 0, 0]), 9);
}

#[test]
fn m6_two_substeps_change_nothing() {
    expect_row(
        &row_world([100; 4], [300; 4]),
        [150; 4],
        2,
        [100; 4],
        [300; 4],
    );
}

#[test]
fn m7_sixteen_substeps() {
    let world = row_world([100; 4], [300; 4]);
    expect_row(&world, [1_600; 4], 16, [100; 4], [300; 4]);
    expect_row(&world, [-1_600; 4], 16, [100; 4], [300; 4]);
}

#[test]
fn m8_no_count_serves() {
    let world = row_world([100; 4], [300; 4]);
    expect_refusal(&world, &zonal(0, 0, &[1_601; 4]), 9);
    expect_refusal(&world, &zonal(0, 0, &[-1_601; 4]), 9);
}

/// Three layers of air 100; the tracer of m9 in the columns named, 0 elsewhere.
fn world_of_m9(cells: &[usize]) -> World {
    let mut world = even_world(grid(4, 1, 3, 1), 100);
    for &cell in cells {
        world.tracers[6 + cell] = 100;
        world.tracers[12 + cell] = 200;
    }
    balance(&mut world);
    world
}

fn column(amounts: &[u32], cell: usize) -> [u32; 3] {
    [amounts[cell], amounts[6 + cell], amounts[12 + cell]]
}

#[test]
fn m9_remap_of_a_column() {
    let table = remap(&[0, 0, 150, 0, 200, 0, 0, 65_536]);
    // Each column has 4 pairs of layers that share air.
    let after = expect_accepted(&world_of_m9(&[2]), &table, 6 * 4);
    for cell in 0..6 {
        assert_eq!(column(&after.air, cell), [150, 50, 100]);
        let tracer = if cell == 2 { [37, 63, 200] } else { [0; 3] };
        assert_eq!(column(&after.tracers, cell), tracer);
    }
}

#[test]
fn m9_upside_down() {
    let mut world = world_of_m9(&[2]);
    world.tracers.swap(2, 14);
    let table = remap(&[0, 0, 150, 0, 200, 0, 0, 65_536]);
    let after = expect_accepted(&world, &table, 6 * 4);
    // The low-end piece is 62 (62.5 cut).
    assert_eq!(column(&after.tracers, 2), [262, 38, 0]);
}

#[test]
fn m9_in_the_caps_has_no_mismatch() {
    let table = remap(&[0, 0, 150, 0, 200, 0, 0, 65_536]);
    let after = expect_accepted(&world_of_m9(&[0, 5]), &table, 6 * 4);
    assert_eq!(column(&after.tracers, 0), [50, 50, 200]);
    assert_eq!(column(&after.tracers, 5), [50, 50, 200]);
}

#[test]
fn m10_an_edge_twice() {
    let world = even_world(grid(4, 1, 2, 1), 1);
    expect_refusal(&world, &remap(&[0, 0, 0, 16_384, 0, 65_536]), 12);
    // With b twice as large the middle edge is 1.
    expect_accepted(&world, &remap(&[0, 0, 0, 32_768, 0, 65_536]), 6 * 2);
}

#[test]
fn m11_and_m12_the_largest_total() {
    let world = row_world([100; 4], [MOST_TRACER as u32, 0, 0, 0]);
    let after = expect_accepted(&world, &emission(0, 3, 0), 0);
    assert_eq!(after, world);
    expect_refusal(&world, &emission(0, 3, 1), 6);
}

#[test]
fn ratio_mismatch_and_piece_by_hand() {
    assert_eq!(SCALE, 262_144);
    // 262,144 · 2 / 3 = 174,762.67 cut.
    assert_eq!(ratio(3, 2), 174_762);
    assert_eq!(ratio(1_000, 1), 262);
    assert_eq!(ratio(65_535, 1), 4);
    assert_eq!(ratio(1, 268_435_455), 262_144 * 268_435_455);
    let mismatch = |qa, q, qb| scheme::mismatch(&Limiter::Present, qa, q, qb);
    // |7 − 0|/2 cut to 3; 2(1 − 0) = 2; 2(7 − 6) = 2.
    assert_eq!(mismatch(0, 3, 7), 3);
    assert_eq!(mismatch(0, 1, 7), 2);
    assert_eq!(mismatch(0, 6, 7), 2);
    assert_eq!(mismatch(7, 3, 0), -3);
    assert_eq!(mismatch(7, 1, 0), -2);
    assert_eq!(mismatch(5, 9, 5), 0);
    assert_eq!(mismatch(5, 9, 6), 0);
    assert_eq!(mismatch(5, 4, 6), 0);
    // Multiplied before the division: floor(50·3/100) = 1.
    assert_eq!(piece_from_high_end(100, 3, 0, 50), 1);
    assert_eq!(piece_from_high_end(100, 100, 262_144, 50), 62);
    assert_eq!(piece_from_low_end(100, 100, 262_144, 50), 37);
    assert_eq!(piece_from_low_end(100, 100, -262_144, 50), 62);
    assert_eq!(piece_from_high_end(100, 100, 262_144, 0), 0);
    assert_eq!(piece_from_high_end(100, 100, 262_144, 100), 100);
    // At the scale before, 65,536 was the mismatch of m1; a quarter of the new one adds 3.125.
    assert_eq!(piece_from_high_end(100, 100, 65_536, 50), 53);
    assert_eq!(piece_from_low_end(100, 100, 65_536, 50), 46);
}

#[test]
fn parts_of_a_flux_by_hand() {
    let parts = |flux: i64, n: i64| (1..=n).map(|s| part(flux, s, n)).collect::<Vec<i64>>();
    assert_eq!(parts(10, 4), [2, 3, 2, 3]);
    assert_eq!(parts(-10, 4), [-2, -3, -2, -3]);
    assert_eq!(parts(1, 3), [0, 0, 1]);
    assert_eq!(parts(-1, 3), [0, 0, -1]);
    assert_eq!(parts(0, 2), [0, 0]);
    assert_eq!(parts(7, 1), [7]);
}

#[test]
fn all_pieces_come_from_the_amounts_before() {
    // Column 1 gives 62 east while it gets the whole 50 units of column 0 (tracer 0).
    expect_row(
        &row_of_four(),
        [50, 50, 0, 0],
        1,
        [50, 100, 150, 100],
        [0, 38, 262, 100],
    );
}

/// Grid 4, 1, 1, 1 with the mismatch 262,144 northward in every column.
fn northward_world() -> World {
    let mut world = row_world([100; 4], [100; 4]);
    world.tracers[5] = 200;
    balance(&mut world);
    world
}

#[test]
fn meridional_pieces_by_hand() {
    let north = meridional(0, &[0, 0, 0, 0, 50, 0, 0, 0]);
    let after = expect_accepted(&northward_world(), &north, 1);
    assert_eq!(after.air, [100, 50, 100, 100, 100, 150]);
    assert_eq!(after.tracers, [0, 38, 100, 100, 100, 262]);

    let south = meridional(0, &[0, 0, 0, -50, 0, 0, 0, 0]);
    let after = expect_accepted(&northward_world(), &south, 1);
    assert_eq!(after.air, [150, 100, 100, 100, 50, 100]);
    assert_eq!(after.tracers, [37, 100, 100, 100, 63, 200]);
}

#[test]
fn meridional_pieces_between_rows_by_hand() {
    // Column 2 has tracer 0, 100, 200 in rows 0 to 2; its cells are 3, 7 and 11.
    let mut world = even_world(grid(4, 3, 1, 1), 100);
    world.tracers[7] = 100;
    world.tracers[11] = 200;
    balance(&mut world);
    let mut fluxes = [0; 16];
    fluxes[2 * 4 + 2] = 50;
    let after = expect_accepted(&world, &meridional(0, &fluxes), 1);
    assert_eq!([after.tracers[7], after.tracers[11]], [38, 262]);
    let mut fluxes = [0; 16];
    fluxes[4 + 2] = -50;
    let after = expect_accepted(&world, &meridional(0, &fluxes), 1);
    assert_eq!([after.tracers[3], after.tracers[7]], [37, 63]);
}

#[test]
fn a_cap_gives_a_plain_piece_at_each_face() {
    let mut world = northward_world();
    world.tracers[5] = 205;
    balance(&mut world);
    // Two pieces of floor(30·205/100) = 61, not one of floor(60·205/100) = 123.
    let south = meridional(0, &[0, 0, 0, 0, 0, -30, -30, 0]);
    let after = expect_accepted(&world, &south, 1);
    assert_eq!(after.air, [100, 100, 130, 130, 100, 40]);
    assert_eq!(after.tracers, [0, 100, 161, 161, 100, 83]);
}

#[test]
fn each_sweep_stays_in_its_row_or_layer() {
    let mut random = Random::new(5);
    let mut world = even_world(grid(4, 3, 2, 2), 100);
    for tracer in &mut world.tracers {
        *tracer = random.amount(0, 999);
    }
    balance(&mut world);
    let after = expect_accepted(&world, &zonal(1, 2, &[9, 8, -9, 7]), 1);
    let changed = |after: &World| -> Vec<usize> {
        (0..28).filter(|&c| after.air[c] != world.air[c]).collect()
    };
    // Row 2 of layer 1 starts at 14 + 1 + 2·4.
    assert_eq!(changed(&after), [23, 24, 25, 26]);
    let mut fluxes = [0; 16];
    fluxes[2 * 4 + 1] = 5;
    let after = expect_accepted(&world, &meridional(1, &fluxes), 1);
    // Between rows 1 and 2 in column 1.
    assert_eq!(changed(&after), [14 + 1 + 4 + 1, 14 + 1 + 8 + 1]);
}

#[test]
fn readings_give_the_amounts() {
    let mut world = even_world(grid(4, 1, 2, 2), 100);
    for (place, tracer) in world.tracers.iter_mut().enumerate() {
        *tracer = place as u32;
    }
    balance(&mut world);
    expect_accepted(&world, &Call::Total { tracer: 0 }, (0..12).sum());
    expect_accepted(&world, &Call::Total { tracer: 1 }, (12..24).sum());
    let after = expect_accepted(&world, &Call::Cell { tracer: 1, cell: 7 }, 19);
    assert_eq!(after, world);
}

#[test]
fn emission_and_withdrawal_change_one_amount() {
    let mut world = even_world(grid(4, 1, 2, 2), 100);
    world = expect_accepted(&world, &emission(1, 7, 30), 0);
    assert_eq!(world.tracers[12 + 7], 30);
    world = expect_accepted(&world, &withdrawal(1, 7, 10), 0);
    assert_eq!(world.tracers[12 + 7], 20);
    assert_eq!(world.tracers.iter().sum::<u32>(), 20);
}
