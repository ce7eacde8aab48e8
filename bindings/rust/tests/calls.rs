//! Case P, m1 and each refusal through the safe wrapper, linked with the proved library.

use puldeho::{raw, Book, Grid, Limiter, Refusal, World, LEDGER_BLOCK, SCALE, SUM_LIMIT};

const GRID: Grid = Grid {
    w: 4,
    r: 1,
    k: 1,
    n: 1,
};
const AIR: [u32; 6] = [100; 6];
const TRACERS: [u32; 6] = [0, 0, 100, 200, 100, 0];
const MOST: u32 = 268_435_455;
/// The ledger of one tracer.
const BLOCK: usize = LEDGER_BLOCK as usize;
/// Where its book stands.
const BOOK: usize = 56;
/// As a load of no gas leaves it.
const NONE: [u32; BLOCK] = loaded(0);
/// As a load of `TRACERS` leaves it.
const LOADED: [u32; BLOCK] = loaded(400);

/// No emitter, limiter 1, and so many units loaded.
const fn loaded(total: u32) -> [u32; BLOCK] {
    let mut ledger = [0; BLOCK];
    ledger[51] = 1;
    ledger[BOOK] = total;
    ledger
}

#[test]
fn case_p() {
    let mut world = World::load(GRID, AIR, TRACERS).unwrap();
    assert_eq!(world.zonal(0, 0, &[0, 50, 0, 0]), Ok(1));
    assert_eq!(world.total(0), Ok(400));
    assert_eq!(world.cell(0, 3), Ok(262));
    assert_eq!(world.air(), [100, 100, 50, 150, 100, 100]);
    assert_eq!(world.tracers(), [0, 0, 38, 262, 100, 0]);
    assert_eq!(world.grid(), GRID);
}

/// Before version 0.6 the scale was 65,536, and the row's tracer 322, 110, 27, 1097.
#[test]
fn case_x1_shows_the_scale() {
    let air = [100, 928, 314, 81, 658, 100];
    let mut world = World::load(GRID, air, [0, 221, 496, 522, 317, 0]).unwrap();
    assert_eq!(world.zonal(0, 0, &[421, 462, 475, 229]), Ok(7));
    assert_eq!(world.air(), [100, 736, 273, 68, 904, 100]);
    assert_eq!(world.tracers(), [0, 321, 110, 27, 1098, 0]);
    assert_eq!(puldeho::SCALE, 262_144);
}

#[test]
fn a_world_is_made_by_an_accepted_load_only() {
    assert_eq!(
        World::load(GRID, vec![0; 6], TRACERS),
        Err(Refusal::AirRange)
    );
}

#[test]
fn every_method_makes_its_call() {
    let mut world = World::load(GRID, AIR, TRACERS).unwrap();
    assert_eq!(world.emission(0, 5, 7), Ok(()));
    assert_eq!(world.withdrawal(0, 3, 200), Ok(()));
    assert_eq!(world.withdrawal(0, 3, 1), Err(Refusal::Withdrawal));
    assert_eq!(world.tracers(), [0, 0, 100, 0, 100, 7]);
    assert_eq!(world.meridional(0, &[1, 0, 0, 0, 0, 0, 0, -10]), Ok(1));
    assert_eq!(world.air(), [99, 101, 100, 100, 110, 90]);
    assert_eq!(world.remap(&[0, 0, 0, 65_536]), Ok(6));
}

#[test]
fn a_long_sweep() {
    let mut world = World::load(GRID, AIR, TRACERS).unwrap();
    assert_eq!(world.long_zonal(0, 0, &[0, 50, 0, 0]), Ok(()));
    assert_eq!(world.air(), [100, 100, 50, 150, 100, 100]);
    assert_eq!(world.tracers(), [0, 0, 37, 263, 100, 0]);
    let before = world.clone();
    assert_eq!(world.long_zonal(0, 0, &[-400; 4]), Ok(()));
    assert_eq!(world, before);
    assert!(world
        .why_long_zonal(0, 0, &[401; 4])
        .ends_with("with 400 taken off every flux the sweep is accepted and ends the same"));
}

#[test]
fn the_count_and_then_the_sweep() {
    let mut world = World::load(GRID, AIR, TRACERS).unwrap();
    let (before, mut single) = (world.clone(), world.clone());
    let counted = world.count_zonal(0, 0, &[150; 4]).unwrap();
    assert_eq!(
        (counted.layer(), counted.row(), counted.fluxes()),
        (0, 0, &[150; 4][..])
    );
    assert_eq!(counted.substeps(), 2);
    assert_eq!(world, before);
    assert_eq!(
        world.why_count_zonal(0, 0, &[150; 4]),
        "the call would be accepted"
    );
    assert_eq!(world.zonal_with_count(&counted), Ok(2));
    assert_eq!(single.zonal(0, 0, &[150; 4]), Ok(2));
    assert_eq!(world, single);
    assert_eq!(
        world.count_zonal(0, 0, &[0, 100, 0, 0]),
        Err(Refusal::Zonal)
    );
}

#[test]
fn a_count_that_no_longer_holds() {
    let mut world = World::load(GRID, AIR, TRACERS).unwrap();
    let counted = world.count_zonal(0, 0, &[150; 4]).unwrap();
    assert_eq!(world.emission(0, 3, 7), Ok(()));
    assert_eq!(world.zonal_with_count(&counted), Ok(2));
    assert_eq!(world.zonal_with_count(&counted), Ok(2));
    assert_eq!(world.zonal(0, 0, &[0, 50, 0, 0]), Ok(1));
    let before = world.clone();
    assert_eq!(world.zonal_with_count(&counted), Err(Refusal::GivenCount));
    assert_eq!(world, before);
    assert!(world.why_zonal_with_count(&counted).starts_with(
        "the sweep of layer 0, row 0 takes 3 substeps now, and the given count is 2, which does not serve"
    ));
    let again = world.count_zonal(0, 0, counted.fluxes()).unwrap();
    assert_eq!(world.zonal_with_count(&again), Ok(3));
}

#[test]
fn emitters_that_start_and_stop() {
    let mut world = World::load(GRID, AIR, TRACERS).unwrap();
    assert_eq!(world.tick(0), Ok(()));
    assert_eq!(world.add_emitter(0, 3, 7, 40), Ok(()));
    assert_eq!(world.add_emitter(0, 3, 8, 60), Ok(()));
    assert_eq!(world.add_emitter(0, 4, 0, 30), Ok(()));
    assert_eq!(world.units_a_tick(0), Ok(130));
    let before = world.clone();
    assert_eq!(world.tick(0), Ok(()));
    assert_eq!(world.tracers(), [0, 0, 100, 300, 130, 0]);
    assert_eq!(world.remove_emitter(0, 7), Ok(()));
    assert_eq!(world.ledger()[..9], [2, 90, 0, 0, 4, 30, 8, 3, 60]);
    assert_eq!(world.ledger()[9..BOOK], NONE[9..BOOK]);
    assert_eq!(world.ledger()[BOOK..], [400, 130, 0]);
    assert_eq!(world.remove_emitter(0, 7), Err(Refusal::EmitterAbsent));
    assert_eq!(world.add_emitter(0, 1, 8, 1), Err(Refusal::EmitterAdded));
    assert!(world
        .why_add_emitter(0, 1, 8, 1)
        .starts_with("tracer 0 already has the id 8: emitter 1, in cell 3"));
    assert!(world
        .why_remove_emitter(0, 7)
        .ends_with("it has the ids 0, 8"));
    assert_ne!(world, before);
    assert_eq!(before.units_a_tick(0), Ok(130));
}

#[test]
fn sixteen_emitters_of_the_largest_units() {
    let two = Grid { n: 2, ..GRID };
    let mut world = World::load(two, AIR, vec![0; 12]).unwrap();
    for id in 0..16 {
        assert_eq!(world.add_emitter(1, 5, id, u32::MAX), Ok(()));
    }
    assert_eq!(world.units_a_tick(1), Ok(68_719_476_720));
    assert_eq!(world.units_a_tick(0), Ok(0));
    assert_eq!(world.units_a_tick(2), Err(Refusal::Index));
    assert_eq!(world.add_emitter(1, 5, 16, 0), Err(Refusal::EmitterAdded));
    assert_eq!(world.add_emitter(0, 5, 16, 0), Ok(()));
    assert_eq!(world.tick(1), Err(Refusal::Emission));
    assert!(world
        .why_tick(1)
        .contains("so at most 268435455 can be emitted"));
    assert_eq!(world.tracers(), [0; 12]);
    let lists = (world.air().to_vec(), world.tracers().to_vec());
    world = World::load(two, lists.0, lists.1).unwrap();
    assert_eq!(world.ledger(), [NONE, NONE].concat());
    assert_eq!(world.why_units_a_tick(1), "the call would be accepted");
}

/// What one sweep leaves of a peak, 50 units of air of which go east, under a limiter.
fn left_of_the_peak(limiter: Limiter) -> u32 {
    let mut world = World::load(GRID, AIR, [0, 100, 300, 200, 0, 0]).unwrap();
    assert_eq!(world.set_limiter(0, limiter), Ok(()));
    assert_eq!(world.limiter(0), Some(limiter));
    assert_eq!(world.zonal(0, 0, &[0, 50, 0, 0]), Ok(1));
    world.tracers()[2]
}

#[test]
fn a_limiter_for_each_gas() {
    let hi = 31 * u64::from(SCALE) / 10;
    assert_eq!(left_of_the_peak(Limiter::Present), 150);
    assert_eq!(left_of_the_peak(Limiter::Positive), 144);
    assert_eq!(left_of_the_peak(Limiter::Fixed { lo: 0, hi }), 148);
    let two = Grid { n: 2, ..GRID };
    let mut world = World::load(two, AIR, vec![0; 12]).unwrap();
    let before = world.clone();
    let wide = Limiter::Fixed {
        lo: 1 << 40,
        hi: u64::MAX,
    };
    assert_eq!(wide.numbers(), (3, 1 << 40, u64::MAX));
    assert_eq!(world.set_limiter(1, wide), Ok(()));
    assert_eq!(
        [0, 1, 2].map(|tracer| world.limiter(tracer)),
        [Some(Limiter::Present), Some(wide), None]
    );
    assert_eq!(
        world.ledger()[BLOCK + 51..BLOCK + BOOK],
        [3, 0, 256, u32::MAX, u32::MAX]
    );
    assert_ne!(world, before);
    let reversed = Limiter::Fixed { lo: 2, hi: 1 };
    assert_eq!(world.set_limiter(1, reversed), Err(Refusal::Limiters));
    assert_eq!(
        world.why_set_limiter(1, reversed),
        "lo is 2 and above hi, which is 1; lo must be at most hi, and both are mixing ratios times 262144"
    );
    assert_eq!(world.set_limiter(2, reversed), Err(Refusal::Index));
    assert_eq!(world.limiter(1), Some(wide));
    assert_eq!(before.limiter(1), Some(Limiter::Present));
}

#[test]
fn a_book_for_each_gas() {
    let two = Grid { n: 2, ..GRID };
    let mut world = World::load(two, AIR, [TRACERS, [5; 6]].concat()).unwrap();
    let book = |loaded, emitted, withdrawn| {
        Some(Book {
            loaded,
            emitted,
            withdrawn,
        })
    };
    assert_eq!(
        [0, 1, 2].map(|tracer| world.book(tracer)),
        [book(400, 0, 0), book(30, 0, 0), None]
    );
    assert_eq!(world.emission(0, 3, 50), Ok(()));
    assert_eq!(world.add_emitter(0, 2, 7, 11), Ok(()));
    assert_eq!(world.tick(0), Ok(()));
    assert_eq!(world.withdrawal(0, 3, 20), Ok(()));
    let before = world.clone();
    assert_eq!(world.zonal(0, 0, &[0, 50, 0, 0]), Ok(1));
    assert_eq!(world.emission(0, 6, 1), Err(Refusal::Index));
    assert_eq!(world.book(0), book(400, 61, 20));
    assert_eq!(world.book(1), book(30, 0, 0));
    assert_eq!(world.total(0), Ok(441));
    assert_eq!(world.withdrawal(0, 3, 1), Ok(()));
    assert_eq!(before.book(0), book(400, 61, 20));
    let lists = (world.air().to_vec(), world.tracers().to_vec());
    let again = World::load(two, lists.0, lists.1).unwrap();
    assert_eq!(again.book(0), book(440, 0, 0));
}

#[test]
fn a_gas_whose_sums_are_full() {
    let mut world = World::load(GRID, AIR, [0; 6]).unwrap();
    for _ in 0..16 {
        assert_eq!(world.emission(0, 2, MOST), Ok(()));
        assert_eq!(world.withdrawal(0, 2, MOST), Ok(()));
    }
    assert_eq!(world.emission(0, 2, MOST), Err(Refusal::Emission));
    assert!(world
        .why_emission(0, 2, MOST)
        .contains("so at most 15 can be emitted until the next load"));
    assert_eq!(world.emission(0, 2, 15), Ok(()));
    assert_eq!(world.emission(0, 2, 1), Err(Refusal::Emission));
    assert_eq!(world.emission(0, 2, 0), Ok(()));
    let book = world.book(0).unwrap();
    assert_eq!(book.emitted, u64::from(SUM_LIMIT));
    assert_eq!(book.loaded + book.emitted, book.withdrawn + 15);
}

#[test]
fn why_says_which_cell_and_what_helps() {
    let world = World::load(GRID, AIR, TRACERS).unwrap();
    let why = world.why_zonal(0, 0, &[0, 100, 0, 0]);
    assert!(why.starts_with("cell 2 (layer 0, row 0, column 1) has air 100"));
    assert!(why.ends_with("must diverge less at this cell"));
    let accepted = world.why_zonal(0, 0, &[0, 50, 0, 0]);
    assert_eq!(accepted, "the call would be accepted");
    assert!(world
        .why_emission(0, 6, 1)
        .starts_with("there is no cell 6"));
    let thin = World::why_load(GRID, [100, 100, 0, 100, 100, 100], TRACERS);
    assert!(thin.starts_with("cell 2 (layer 0, row 0, column 1) has air 0"));
}

#[test]
fn readings_take_a_world_that_is_only_read() {
    let world = World::load(GRID, AIR, TRACERS).unwrap();
    assert_eq!((world.total(0), world.cell(0, 3)), (Ok(400), Ok(200)));
}

#[test]
fn lengths_and_cell_numbers() {
    let grid = Grid {
        w: 6,
        r: 3,
        k: 2,
        n: 5,
    };
    assert_eq!(grid.cells_in_layer(), 20);
    assert_eq!(grid.air_length(), 40);
    assert_eq!(grid.tracers_length(), 200);
    assert_eq!(grid.ledger_length(), 5 * BLOCK);
    assert_eq!(grid.zonal_fluxes_length(), 6);
    assert_eq!(grid.long_zonal_fluxes_length(), 6);
    assert_eq!(grid.meridional_fluxes_length(), 24);
    assert_eq!(grid.remap_table_length(), 6);
    assert_eq!(grid.cell_number(1, 2, 5), Some(38));
    assert_eq!((grid.south_cap(1), grid.north_cap(1)), (Some(20), Some(39)));
    assert_eq!(grid.cell_number(2, 0, 0), None);
    assert_eq!(grid.cell_number(0, 3, 0), None);
    assert_eq!(grid.cell_number(0, 0, 6), None);
    assert_eq!((grid.south_cap(2), grid.north_cap(2)), (None, None));
}

#[test]
fn the_count_of_a_remap() {
    let (mut air, mut tracers) = ([100; 18], [0; 18]);
    let grid = Grid { k: 3, ..GRID };
    let table = [0, 0, 150, 0, 200, 0, 0, 65_536];
    assert_eq!(
        raw::remap(grid, &mut air, &mut tracers, &NONE, &table),
        Ok(24)
    );
}

#[test]
fn the_most_steps_of_a_remap() {
    let largest = Grid {
        w: 72,
        r: 44,
        k: 32,
        n: 8,
    };
    assert_eq!(largest.most_remap_steps(), 1_623_040);
    assert_eq!(Grid { k: 3, ..GRID }.most_remap_steps(), 36);
}

#[test]
fn m1() {
    let (mut air, mut tracers) = (AIR, TRACERS);
    let fluxes = [0, 50, 0, 0];
    assert_eq!(
        raw::zonal(GRID, &mut air, &mut tracers, &LOADED, 0, 0, &fluxes),
        Ok(1)
    );
    assert_eq!(air[1..5], [100, 50, 150, 100]);
    assert_eq!(tracers[1..5], [0, 38, 262, 100]);
}

#[test]
fn emission_withdrawal_meridional_and_remap() {
    let (mut air, mut tracers, mut ledger) = (AIR, TRACERS, LOADED);
    let emission = raw::emission(GRID, &air, &mut tracers, &mut ledger, 0, 5, 7);
    assert_eq!(emission, Ok(0));
    assert_eq!(tracers, [0, 0, 100, 200, 100, 7]);
    let withdrawal = raw::withdrawal(GRID, &air, &mut tracers, &mut ledger, 0, 3, 200);
    assert_eq!(withdrawal, Ok(0));
    assert_eq!(tracers, [0, 0, 100, 0, 100, 7]);
    assert_eq!(ledger[BOOK..], [400, 7, 200]);
    let fluxes = [1, 0, 0, 0, 0, 0, 0, -10];
    assert_eq!(
        raw::meridional(GRID, &mut air, &mut tracers, &ledger, 0, &fluxes),
        Ok(1)
    );
    assert_eq!(air, [99, 101, 100, 100, 110, 90]);
    assert_eq!(
        raw::remap(GRID, &mut air, &mut tracers, &ledger, &[0, 0, 0, 65_536]),
        Ok(6)
    );
}

/// Makes the call on a world; it must give the refusal and leave the world as it was.
fn refused(
    air: &[u32],
    tracers: &[u32],
    call: impl Fn(&mut [u32], &mut [u32]) -> Result<u32, Refusal>,
    refusal: Refusal,
) {
    let (mut air_after, mut tracers_after) = (air.to_vec(), tracers.to_vec());
    assert_eq!(call(&mut air_after, &mut tracers_after), Err(refusal));
    assert_eq!(air_after, air);
    assert_eq!(tracers_after, tracers);
}

#[test]
fn refusals_1_to_4() {
    let narrow = Grid { w: 3, ..GRID };
    refused(
        &AIR,
        &TRACERS,
        |a, t| raw::load(narrow, a, t, &mut NONE.clone()),
        Refusal::GridRange,
    );
    refused(
        &AIR,
        &TRACERS[1..],
        |a, t| raw::load(GRID, a, t, &mut NONE.clone()),
        Refusal::Lengths,
    );
    refused(
        &[],
        &[],
        |a, t| raw::load(GRID, a, t, &mut NONE.clone()),
        Refusal::Lengths,
    );
    refused(
        &AIR,
        &TRACERS,
        |a, t| raw::load(GRID, a, t, &mut NONE.clone()[1..]),
        Refusal::Lengths,
    );
    let thin = [100, 100, 0, 100, 100, 100];
    refused(
        &thin,
        &TRACERS,
        |a, t| raw::load(GRID, a, t, &mut NONE.clone()),
        Refusal::AirRange,
    );
    let full = [MOST, 1, 0, 0, 0, 0];
    refused(
        &AIR,
        &full,
        |a, t| raw::load(GRID, a, t, &mut NONE.clone()),
        Refusal::Totals,
    );
}

#[test]
fn refusals_5_to_7() {
    let emission = |cell, amount| {
        move |a: &mut [u32], t: &mut [u32]| {
            raw::emission(GRID, a, t, &mut LOADED.clone(), 0, cell, amount)
        }
    };
    refused(&AIR, &TRACERS, emission(6, 0), Refusal::Index);
    refused(&AIR, &TRACERS, emission(5, MOST), Refusal::Emission);
    refused(
        &AIR,
        &TRACERS,
        |a, t| raw::withdrawal(GRID, a, t, &mut LOADED.clone(), 0, 3, 201),
        Refusal::Withdrawal,
    );
}

#[test]
fn refusals_8_to_10() {
    let zonal = |flux: i32| {
        move |a: &mut [u32], t: &mut [u32]| raw::zonal(GRID, a, t, &LOADED, 0, 0, &[0, flux, 0, 0])
    };
    refused(&AIR, &TRACERS, zonal(1_048_561), Refusal::Fluxes);
    refused(&AIR, &TRACERS, zonal(i32::MIN), Refusal::Fluxes);
    refused(&AIR, &TRACERS, zonal(100), Refusal::Zonal);
    refused(
        &AIR,
        &TRACERS,
        |a, t| raw::meridional(GRID, a, t, &LOADED, 0, &[100, 0, 0, 0, 0, 0, 0, 0]),
        Refusal::Meridional,
    );
}

#[test]
fn refusals_11_and_12() {
    let two = Grid { k: 2, ..GRID };
    let remap = |a, b| {
        move |air: &mut [u32], t: &mut [u32]| {
            raw::remap(two, air, t, &NONE, &[0, 0, a, b, 0, 65_536])
        }
    };
    refused(&[1; 12], &[0; 12], remap(0, 65_537), Refusal::Table);
    refused(&[1; 12], &[0; 12], remap(0, 16_384), Refusal::Remap);
}

#[test]
fn refusals_16_and_17() {
    let long = |fluxes: [i32; 4]| {
        move |a: &mut [u32], t: &mut [u32]| raw::long_zonal(GRID, a, t, &LOADED, 0, 0, &fluxes)
    };
    refused(&AIR, &TRACERS, long([0, 0, 0, -1_048_561]), Refusal::Fluxes);
    refused(
        &AIR,
        &TRACERS,
        long([1_048_560, 0, 0, 0]),
        Refusal::LongFlux,
    );
    refused(
        &AIR,
        &TRACERS,
        long([401, 400, 400, 400]),
        Refusal::LongFlux,
    );
    refused(&AIR, &TRACERS, long([401, 0, 0, 0]), Refusal::LongFlux);
    refused(&AIR, &TRACERS, long([100, 0, 0, 0]), Refusal::LongAir);
}

/// A ledger with an emitter of id 7, in cell 3, of 40 units.
fn one_emitter() -> [u32; BLOCK] {
    let mut ledger = LOADED;
    ledger[..6].copy_from_slice(&[1, 40, 0, 7, 3, 40]);
    ledger
}

#[test]
fn refusals_18_and_19() {
    let ledger = one_emitter();
    let mut changed = ledger;
    let add = |l: &mut [u32]| raw::add_emitter(GRID, &AIR, &TRACERS, l, 0, 3, 7, 40);
    assert_eq!(add(&mut changed), Err(Refusal::EmitterAdded));
    let remove = |l: &mut [u32], id| raw::remove_emitter(GRID, &AIR, &TRACERS, l, 0, id);
    assert_eq!(remove(&mut changed, 8), Err(Refusal::EmitterAbsent));
    assert_eq!(changed, ledger);
    assert_eq!(remove(&mut changed, 7), Ok(0));
    assert_eq!(changed, LOADED);
    assert_eq!(add(&mut changed), Ok(0));
    assert_eq!(changed, ledger);
}

#[test]
fn refusal_21() {
    let unloaded = [0; BLOCK];
    let (mut air, mut tracers) = (AIR, TRACERS);
    let fluxes = [0, 50, 0, 0];
    let zonal = raw::zonal(GRID, &mut air, &mut tracers, &unloaded, 0, 0, &fluxes);
    assert_eq!(zonal, Err(Refusal::Limiters));
    let absent = raw::count_zonal(GRID, &air, &tracers, &unloaded, 9, 0, &fluxes);
    assert_eq!(absent, Err(Refusal::Limiters));
    let given = raw::zonal_with_count(GRID, &mut air, &mut tracers, &unloaded, 0, 0, 1, &fluxes);
    assert_eq!(given, Err(Refusal::Limiters));
    let long = raw::long_zonal(GRID, &mut air, &mut tracers, &unloaded, 0, 0, &fluxes);
    assert_eq!(long, Err(Refusal::Limiters));
    let meridional = raw::meridional(GRID, &mut air, &mut tracers, &unloaded, 0, &[0; 8]);
    assert_eq!(meridional, Err(Refusal::Limiters));
    let remap = raw::remap(GRID, &mut air, &mut tracers, &unloaded, &[0; 4]);
    assert_eq!(remap, Err(Refusal::Limiters));
    assert_eq!((air, tracers), (AIR, TRACERS));
    let total = raw::total(GRID, &air, &tracers, &unloaded, 0);
    assert_eq!(total, Err(Refusal::Books));
    let mut ledger = LOADED;
    ledger[51] = 0;
    let unlimited = ledger;
    let mut set = |number, lo, hi| {
        let set = raw::set_limiter(GRID, &AIR, &TRACERS, &mut ledger, 0, number, lo, hi);
        (set, ledger)
    };
    assert_eq!(set(0, 0, 0), (Err(Refusal::Limiters), unlimited));
    assert_eq!(set(4, 0, 0), (Err(Refusal::Limiters), unlimited));
    assert_eq!(set(2, 1, 0), (Err(Refusal::Limiters), unlimited));
    assert_eq!(set(1, 0, 0), (Ok(0), LOADED));
}

/// Every call but a load refuses the book with 22, also where its own arguments are absent, and leaves every list as it was.
fn unbalanced(book: [u32; 3]) {
    let mut ledger = LOADED;
    ledger[BOOK..].copy_from_slice(&book);
    let (mut a, mut t, mut l) = (AIR, TRACERS, ledger);
    let still = [0; 4];
    let answers = [
        raw::emission(GRID, &a, &mut t, &mut l, 9, 0, 0),
        raw::withdrawal(GRID, &a, &mut t, &mut l, 9, 0, 0),
        raw::zonal(GRID, &mut a, &mut t, &l, 9, 0, &still),
        raw::count_zonal(GRID, &a, &t, &l, 9, 0, &still),
        raw::zonal_with_count(GRID, &mut a, &mut t, &l, 9, 0, 0, &still),
        raw::long_zonal(GRID, &mut a, &mut t, &l, 9, 0, &still),
        raw::meridional(GRID, &mut a, &mut t, &l, 9, &[0; 8]),
        raw::remap(GRID, &mut a, &mut t, &l, &[1; 4]),
        raw::total(GRID, &a, &t, &l, 9),
        raw::cell(GRID, &a, &t, &l, 9, 0),
        raw::add_emitter(GRID, &a, &t, &mut l, 9, 0, 0, 0),
        raw::remove_emitter(GRID, &a, &t, &mut l, 9, 0),
        raw::tick(GRID, &a, &mut t, &mut l, 9),
        raw::set_limiter(GRID, &a, &t, &mut l, 9, 4, 1, 0),
    ];
    assert_eq!(answers, [Err(Refusal::Books); 14]);
    let units = raw::units_a_tick(GRID, &a, &t, &l, 9);
    assert_eq!(units, Err(Refusal::Books));
    assert_eq!((a, t, l), (AIR, TRACERS, ledger));
    assert_eq!(raw::load(GRID, &a, &t, &mut l), Ok(0));
    assert_eq!(l, LOADED);
}

#[test]
fn refusal_22() {
    unbalanced([399, 0, 0]);
    unbalanced([401, 0, 0]);
    unbalanced([400, 1, 0]);
    unbalanced([400, 0, 1]);
    // 400, were the sums cut to 32 bits
    unbalanced([0, 0, u32::MAX - 399]);
    unbalanced([u32::MAX, 401, 0]);
}

#[test]
fn sums_at_their_limit() {
    let (mut tracers, mut ledger) = (TRACERS, LOADED);
    ledger[BOOK..].copy_from_slice(&[395, SUM_LIMIT, SUM_LIMIT - 5]);
    let before = ledger;
    let emission = raw::emission(GRID, &AIR, &mut tracers, &mut ledger, 0, 3, 1);
    assert_eq!(emission, Err(Refusal::Emission));
    let withdrawal = raw::withdrawal(GRID, &AIR, &mut tracers, &mut ledger, 0, 3, 6);
    assert_eq!(withdrawal, Err(Refusal::Withdrawal));
    assert_eq!((tracers, ledger), (TRACERS, before));
    let emission = raw::emission(GRID, &AIR, &mut tracers, &mut ledger, 0, 3, 0);
    assert_eq!(emission, Ok(0));
    let withdrawal = raw::withdrawal(GRID, &AIR, &mut tracers, &mut ledger, 0, 3, 5);
    assert_eq!(withdrawal, Ok(0));
    assert_eq!(ledger[BOOK..], [395, SUM_LIMIT, SUM_LIMIT]);
    let add = raw::add_emitter(GRID, &AIR, &tracers, &mut ledger, 0, 3, 7, 1);
    assert_eq!(add, Ok(0));
    let tick = raw::tick(GRID, &AIR, &mut tracers, &mut ledger, 0);
    assert_eq!(tick, Err(Refusal::Emission));
    assert_eq!(raw::load(GRID, &AIR, &tracers, &mut ledger), Ok(0));
    assert_eq!(ledger, loaded(395));
}

/// The calls on emitters refuse it with 5 and leave every list as it was; no other call looks into it, and a load clears it.
fn broken(change: impl Fn(&mut [u32])) {
    let mut ledger = one_emitter();
    change(&mut ledger);
    let (mut lent, mut tracers) = (ledger, TRACERS);
    let add = raw::add_emitter(GRID, &AIR, &tracers, &mut lent, 0, 3, 9, 40);
    assert_eq!(add, Err(Refusal::Index));
    let remove = raw::remove_emitter(GRID, &AIR, &tracers, &mut lent, 0, 7);
    assert_eq!(remove, Err(Refusal::Index));
    let tick = raw::tick(GRID, &AIR, &mut tracers, &mut lent, 0);
    assert_eq!(tick, Err(Refusal::Index));
    let units = raw::units_a_tick(GRID, &AIR, &tracers, &lent, 0);
    assert_eq!(units, Err(Refusal::Index));
    assert_eq!((lent, tracers), (ledger, TRACERS));
    assert_eq!(raw::total(GRID, &AIR, &tracers, &lent, 0), Ok(400));
    assert_eq!(raw::load(GRID, &AIR, &tracers, &mut lent), Ok(0));
    assert_eq!(lent, LOADED);
}

#[test]
fn a_broken_ledger() {
    broken(|ledger| ledger[0] = 17);
    broken(|ledger| ledger[0] = u32::MAX);
    broken(|ledger| ledger[4] = 6);
    broken(|ledger| ledger[1] = 41);
    broken(|ledger| ledger[2] = 1);
    broken(|ledger| {
        ledger[..9].copy_from_slice(&[2, 40, 0, 7, 3, 40, 7, 4, 0]);
    });
}

#[test]
fn a_refusal_says_its_number_and_condition() {
    let narrow = Grid { w: 3, ..GRID };
    let refusal = raw::load(narrow, &AIR, &TRACERS, &mut NONE.clone()).unwrap_err();
    assert_eq!(
        refusal.to_string(),
        "refusal 1: W, R, K or N is outside its range; give W from 4 to 72, R from 1 to 44, K from 1 to 32 and N from 1 to 8, in this order"
    );
    let numbers: Vec<u32> = Refusal::ALL.iter().map(|&r| r as u32).collect();
    // 13 to 15 are the runner program's.
    assert_eq!(numbers, (1..=12).chain(16..=22).collect::<Vec<u32>>());
}

/// On the greatest grid, in a thread whose whole stack is the 256 KiB that no call may pass.
#[test]
fn every_call_runs_on_256_kib_of_stack() {
    let grid = Grid {
        w: 72,
        r: 44,
        k: 32,
        n: 8,
    };
    let cells = 32 * (2 + 44 * 72);
    let calls = move || {
        let (mut air, mut tracers) = (vec![100; cells], vec![1; 8 * cells]);
        let mut l = vec![1; 8 * BLOCK];
        let table: Vec<u32> = (0..=32).flat_map(|j| [0, 2048 * j]).collect();
        assert_eq!(raw::load(grid, &air, &tracers, &mut l), Ok(0));
        let set = raw::set_limiter(grid, &air, &tracers, &mut l, 7, 3, 0, u64::MAX);
        assert_eq!(set, Ok(0));
        let emission = raw::emission(grid, &air, &mut tracers, &mut l, 7, 9, 1);
        assert_eq!(emission, Ok(0));
        let withdrawal = raw::withdrawal(grid, &air, &mut tracers, &mut l, 7, 9, 1);
        assert_eq!(withdrawal, Ok(0));
        assert_eq!(
            raw::zonal(grid, &mut air, &mut tracers, &l, 31, 43, &[1600; 72]),
            Ok(16)
        );
        let count = raw::count_zonal(grid, &air, &tracers, &l, 31, 43, &[1600; 72]);
        assert_eq!(count, Ok(16));
        assert_eq!(
            raw::zonal_with_count(grid, &mut air, &mut tracers, &l, 31, 43, 16, &[1600; 72]),
            Ok(16)
        );
        assert_eq!(
            raw::long_zonal(grid, &mut air, &mut tracers, &l, 31, 43, &[1601; 72]),
            Ok(0)
        );
        assert_eq!(
            raw::meridional(grid, &mut air, &mut tracers, &l, 31, &[1; 72 * 45]),
            Ok(1)
        );
        assert_eq!(raw::total(grid, &air, &tracers, &l, 7), Ok(cells as u32));
        assert_eq!(raw::cell(grid, &air, &tracers, &l, 7, 9), Ok(1));
        raw::remap(grid, &mut air, &mut tracers, &l, &table).unwrap();
        for id in 0..16 {
            let add = raw::add_emitter(grid, &air, &tracers, &mut l, 7, id, id, 1);
            assert_eq!(add, Ok(0));
        }
        assert_eq!(raw::tick(grid, &air, &mut tracers, &mut l, 7), Ok(0));
        let remove = raw::remove_emitter(grid, &air, &tracers, &mut l, 7, 3);
        assert_eq!(remove, Ok(0));
        assert_eq!(raw::units_a_tick(grid, &air, &tracers, &l, 7), Ok(15));
        let total = raw::total(grid, &air, &tracers, &l, 7);
        assert_eq!(total, Ok(cells as u32 + 16));
    };
    let thread = std::thread::Builder::new().stack_size(256 * 1024);
    thread.spawn(calls).unwrap().join().unwrap();
}
