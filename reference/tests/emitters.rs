//! Document 02's emitters: the request's numbers, a record's four faults, 18 and 19, loads, laws.

mod common;
use common::*;
use reference::{call, script, Call, World};

/// Grid 4, 1, 1, 2 with air 100, 6 cells, and blocks of the ledger at 0 and 59.
fn small_world() -> World {
    even_world(grid(4, 1, 1, 2), 100)
}

/// Each emitter as id, cell, units, added in this order.
fn with_emitters(world: &World, tracer: u32, emitters: &[[u32; 3]]) -> World {
    let mut world = world.clone();
    for &[id, cell, units] in emitters {
        world = expect_accepted(&world, &add_emitter(tracer, cell, id, units), 0);
    }
    world
}

/// The first numbers of a tracer's block; the rest of its emitters' must be 0, and its limiter and
/// its books are those of a load without gas.
fn expect_block(world: &World, tracer: usize, numbers: &[u32]) {
    let mut block = numbers.to_vec();
    block.resize(51, 0);
    block.extend([1, 0, 0, 0, 0, 0, 0, 0]);
    assert_eq!(world.ledger[BLOCK * tracer..BLOCK * (tracer + 1)], block);
}

/// 16 emitters, ids 100 to 115.
fn sixteen(units: u32) -> Vec<[u32; 3]> {
    (0..16).map(|i| [100 + i, i % 6, units]).collect()
}

/// One call of each kind on the emitters of a tracer.
fn emitter_calls(tracer: u32) -> [Call; 4] {
    [
        add_emitter(tracer, 0, 50, 1),
        remove_emitter(tracer, 7),
        tick(tracer),
        units_a_tick(tracer),
    ]
}

#[test]
fn sixteen_stand_and_a_place_is_used_again() {
    let mut world = with_emitters(&small_world(), 1, &sixteen(3));
    expect_refusal(&world, &add_emitter(1, 0, 1, 0), 18);
    expect_accepted(&world, &add_emitter(0, 0, 1, 0), 0);
    world = expect_accepted(&world, &remove_emitter(1, 104), 0);
    // The last one, 115 in cell 3, stands in the fifth place; 0 is over the place that it left.
    assert_eq!(world.ledger[59 + 3 + 12..59 + 3 + 15], [115, 3, 3]);
    assert_eq!(world.ledger[59 + 48..59 + 51], [0, 0, 0]);
    world = expect_accepted(&world, &add_emitter(1, 5, 1, 9), 0);
    assert_eq!(world.ledger[59 + 48..59 + 51], [1, 5, 9]);
    assert_eq!(world.ledger[59..62], [16, 15 * 3 + 9, 0]);
    expect_refusal(&world, &add_emitter(1, 0, 2, 0), 18);
    expect_refusal(&world, &add_emitter(1, 0, 100, 0), 18);
}

#[test]
fn an_id_is_the_tracers_own() {
    let world = with_emitters(&small_world(), 0, &[[7, 3, 250]]);
    expect_refusal(&world, &add_emitter(0, 3, 7, 250), 18);
    expect_refusal(&world, &add_emitter(0, 4, 7, 1), 18);
    expect_refusal(&world, &remove_emitter(1, 7), 19);
    let world = with_emitters(&world, 1, &[[7, 3, 250]]);
    let world = expect_accepted(&world, &remove_emitter(0, 7), 0);
    expect_block(&world, 0, &[]);
    expect_block(&world, 1, &[1, 250, 0, 7, 3, 250]);
}

#[test]
fn removals_of_the_first_a_middle_and_the_last() {
    let three = [[7, 3, 250], [8, 1, 20], [9, 5, 30]];
    let world = with_emitters(&small_world(), 0, &three);
    for (id, left) in [
        (7, [2, 50, 0, 9, 5, 30, 8, 1, 20]),
        (8, [2, 280, 0, 7, 3, 250, 9, 5, 30]),
        (9, [2, 270, 0, 7, 3, 250, 8, 1, 20]),
    ] {
        let after = expect_accepted(&world, &remove_emitter(0, id), 0);
        expect_block(&after, 0, &left);
        expect_block(&after, 1, &[]);
    }
    expect_refusal(&world, &remove_emitter(0, 10), 19);
}

#[test]
fn the_reading_has_64_bits() {
    let world = with_emitters(&small_world(), 0, &sixteen(u32::MAX));
    expect_accepted(&world, &units_a_tick(0), 68_719_476_720);
    expect_accepted(&world, &units_a_tick(1), 0);
    expect_refusal(&world, &tick(0), 6);
    // 2 to the 32nd: its low half alone would fit.
    let world = with_emitters(&small_world(), 0, &[[1, 0, u32::MAX], [2, 0, 1]]);
    expect_accepted(&world, &units_a_tick(0), 1 << 32);
    expect_refusal(&world, &tick(0), 6);
    let world = expect_accepted(&world, &remove_emitter(0, 2), 0);
    expect_block(&world, 0, &[1, u32::MAX, 0, 1, 0, u32::MAX]);
}

#[test]
fn ticks_to_the_limit_and_one_past_it() {
    let mut world = small_world();
    world.tracers[0] = MOST_TRACER as u32 - 100;
    world.tracers[6] = MOST_TRACER as u32;
    balance(&mut world);
    world = with_emitters(&world, 0, &[[1, 2, 30], [2, 4, 15], [3, 2, 5], [4, 1, 0]]);
    for n in 1..=2 {
        world = expect_accepted(&world, &tick(0), 0);
        assert_eq!(world.tracers[1..6], [0, 35 * n, 0, 15 * n, 0]);
    }
    expect_refusal(&world, &tick(0), 6);
    assert_eq!(expect_accepted(&world, &tick(1), 0), world);
    let zero = with_emitters(&world, 1, &[[1, 2, 0]]);
    assert_eq!(expect_accepted(&zero, &tick(1), 0), zero);
    let unit = with_emitters(&zero, 1, &[[2, 2, 1]]);
    expect_refusal(&unit, &tick(1), 6);
}

#[test]
fn numbers_past_the_standing_ones_are_not_tested() {
    let mut world = with_emitters(&small_world(), 0, &[[7, 3, 250]]);
    world.ledger[6..12].copy_from_slice(&[7, 99, 1, 7, u32::MAX, u32::MAX]);
    expect_accepted(&world, &units_a_tick(0), 250);
    let ticked = expect_accepted(&world, &tick(0), 0);
    assert_eq!(ticked.tracers[..6], [0, 0, 0, 250, 0, 0]);
    let added = expect_accepted(&world, &add_emitter(0, 2, 8, 1), 0);
    assert_eq!(added.ledger[..9], [2, 251, 0, 7, 3, 250, 8, 2, 1]);
    assert_eq!(added.ledger[9..], world.ledger[9..]);
    let removed = expect_accepted(&world, &remove_emitter(0, 7), 0);
    assert_eq!(removed.ledger[..6], [0; 6]);
    assert_eq!(removed.ledger[6..], world.ledger[6..]);
}

/// Worlds whose tracer `broken` has one fault each in its record.
fn faulty_worlds(world: &World, broken: usize) -> Vec<World> {
    let first = BLOCK * broken;
    let one = [[7, 3, 250], [8, 1, 20], [9, 5, 30]];
    let good = with_emitters(world, broken as u32, &one);
    let changed = |place: usize, number: u32| {
        let mut world = good.clone();
        world.ledger[first + place] = number;
        world
    };
    let mut worlds = vec![
        changed(0, 17),
        changed(0, u32::MAX),
        changed(0, 2),
        changed(4, 6),
        changed(10, u32::MAX),
        changed(9, 7),
        changed(9, 8),
        changed(1, 299),
        changed(2, 1),
        changed(11, 31),
    ];
    // 17 of which the first 16 are good.
    let mut full = with_emitters(world, broken as u32, &sixteen(3));
    full.ledger[first] = 17;
    worlds.push(full);
    worlds
}

#[test]
fn a_fault_of_any_tracer_is_5_in_these_calls() {
    for (broken, named) in [(0, 1), (1, 0)] {
        let sound = with_emitters(&small_world(), named, &[[7, 3, 250]]);
        for asked in emitter_calls(named) {
            let mut copy = sound.clone();
            assert_eq!(checked_call(&mut copy, &asked).number, 0);
        }
        for world in faulty_worlds(&sound, broken) {
            for asked in emitter_calls(named) {
                expect_refusal(&world, &asked, 5);
            }
            for asked in emitter_calls(broken as u32) {
                expect_refusal(&world, &asked, 5);
            }
        }
    }
}

#[test]
fn no_other_call_tests_the_record() {
    for world in faulty_worlds(&small_world(), 1) {
        let calls = each_call(&world.grid);
        for asked in calls.iter().skip(1).filter(|asked| {
            let calls = emitter_calls(0);
            let same = |it: &Call| std::mem::discriminant(it) == std::mem::discriminant(*asked);
            !calls.iter().any(same)
        }) {
            let mut after = world.clone();
            assert_eq!(checked_call(&mut after, asked).number, 0);
            assert_eq!(after.ledger, world.ledger);
        }
        let loaded = expect_accepted(&world, &Call::Load, 0);
        assert_eq!(loaded, small_world());
    }
}

#[test]
fn a_refused_load_leaves_the_ledger() {
    let mut world = with_emitters(&small_world(), 0, &sixteen(3));
    world.air[5] = 0;
    expect_refusal(&world, &Call::Load, 3);
    world.air[5] = 100;
    world.tracers[11] = u32::MAX;
    expect_refusal(&world, &Call::Load, 4);
    world.ledger.push(0);
    expect_refusal(&world, &Call::Load, 2);
}

#[test]
fn absent_indices_and_5_before_18_19_and_6() {
    let mut full = with_emitters(&small_world(), 0, &sixteen(3));
    full.tracers[0] = MOST_TRACER as u32;
    balance(&mut full);
    for tracer in [2, u32::MAX] {
        for asked in emitter_calls(tracer) {
            expect_refusal(&full, &asked, 5);
        }
    }
    for cell in [6, u32::MAX] {
        expect_refusal(&full, &add_emitter(0, cell, 1, 1), 5);
        expect_refusal(&full, &add_emitter(1, cell, 1, 1), 5);
    }
    expect_accepted(&full, &add_emitter(1, 5, 1, 1), 0);
    expect_refusal(&full, &add_emitter(0, 5, 1, 1), 18);
    expect_refusal(&full, &remove_emitter(0, 1), 19);
    expect_refusal(&full, &tick(0), 6);
    full.ledger[59] = 17;
    for asked in [add_emitter(0, 5, 1, 1), remove_emitter(0, 1), tick(0)] {
        expect_refusal(&full, &asked, 5);
    }
}

#[test]
fn a_cell_counts_over_all_layers() {
    let world = even_world(grid(4, 1, 2, 2), 100);
    let world = with_emitters(&world, 1, &[[1, 6, 30], [2, 11, 40]]);
    expect_refusal(&world, &add_emitter(1, 12, 3, 1), 5);
    let after = expect_accepted(&world, &tick(1), 0);
    assert_eq!((after.tracers[12 + 6], after.tracers[12 + 11]), (30, 40));
}

/// In worlds reached by calls: an emitter added and removed leaves the ledger as it was, and a
/// tick adds to each cell the units of the emitters that name it, to no other cell, and all of them
/// to the emitted sum.
#[test]
fn added_and_removed_and_ticked_on_random_lists() {
    let mut random = Random::new(31);
    let mut met = (0, 0);
    for _ in 0..2_000 {
        let mut world = random_world(&mut random);
        for _ in 0..40 {
            let asked = random_call(&mut random, &world);
            call(&mut world, &asked);
            let mut added = world.clone();
            if call(&mut added, &add_emitter(0, 1, 12_345, 678)) == accepted(0) {
                let restored = expect_accepted(&added, &remove_emitter(0, 12_345), 0);
                assert_eq!(restored, world);
                met.0 += 1;
            }
            let mut ticked = world.clone();
            if call(&mut ticked, &tick(0)) == accepted(0) {
                let standing = world.ledger[0] as usize;
                for emitter in world.ledger[3..3 + 3 * standing].chunks(3) {
                    ticked.tracers[emitter[1] as usize] -= emitter[2];
                    ticked.ledger[57] -= emitter[2];
                }
                assert_eq!(ticked, world);
                met.1 += standing;
            }
        }
    }
    assert!(met.0 > 50_000 && met.1 > 50_000, "{met:?}");
}

/// The inputs of the cases y2-1, y2-2, .. of the model's table, and what this implementation answers.
#[test]
fn cases_of_the_emitters_answer_as_stored() {
    let outcome = script::run(include_str!("../cases/emitters.txt"));
    assert_eq!(outcome.error, None);
    assert_eq!(outcome.lines, include_str!("../cases/emitters.out"));
}
