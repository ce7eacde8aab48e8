//! Document 02's books: the stored cases, 22 and its place in every call, the limits of the sums, and
//! on random lists that books agree with the cells and with the history.

mod common;
use common::books::{balanced, books_of, put_books, put_random_books, total_of, Books};
use common::limits::{limits, limits_of, put_limits};
use common::*;
use reference::{call, script, Answer, Call, World};

const MOST: u32 = u32::MAX;
const MOST_TOTAL: u32 = MOST_TRACER as u32;

/// The inputs of the cases y8-1, y8-2, .. of request 8, and what this implementation answers.
#[test]
fn cases_of_the_books_answer_as_stored() {
    let outcome = script::run(include_str!("../cases/books.txt"));
    assert_eq!(outcome.error, None);
    assert_eq!(outcome.lines, include_str!("../cases/books.out"));
}

/// Grid 4, 1, 1, N with air 100 and these totals, each in cell 2.
fn world_of_totals(totals: &[u32]) -> World {
    let mut world = even_world(grid(4, 1, 1, totals.len() as u32), 100);
    for (tracer, &total) in totals.iter().enumerate() {
        world.tracers[6 * tracer + 2] = total;
    }
    balance(&mut world);
    world
}

/// The world with these books of one tracer.
fn with_books(world: &World, tracer: usize, books: Books) -> World {
    let mut world = world.clone();
    put_books(&mut world, tracer, books);
    world
}

/// A world that lacks nothing for `each_call` and a removal: 100 and 72 units, an emitter 7 of tracer
/// 0, and books of a history.
fn sound_world() -> World {
    let mut world = world_of_totals(&[100, 72]);
    world = expect_accepted(&world, &add_emitter(0, 1, 7, 3), 0);
    put_books(&mut world, 0, [60, 50, 10]);
    put_books(&mut world, 1, [40, 50, 18]);
    world
}

/// One call of each kind but a load, each accepted in the sound world.
fn calls_but_load() -> Vec<Call> {
    let mut calls = each_call(&sound_world().grid);
    calls.push(remove_emitter(0, 7));
    calls.retain(|asked| *asked != Call::Load);
    assert_eq!(calls.len(), 15);
    calls
}

/// Each sum off by one, up and down, in either tracer, and an amount: 22 in every call but a load,
/// which writes the books anew.
#[test]
fn off_by_one_is_22_in_every_call_but_a_load() {
    let sound = sound_world();
    let mut broken = Vec::new();
    for place in [56, 57, 58, 59 + 56, 59 + 57, 59 + 58] {
        for number in [sound.ledger[place] + 1, sound.ledger[place] - 1] {
            let mut world = sound.clone();
            world.ledger[place] = number;
            broken.push(world);
        }
    }
    for place in [2, 6 + 2] {
        for number in [sound.tracers[place] + 1, sound.tracers[place] - 1] {
            let mut world = sound.clone();
            world.tracers[place] = number;
            broken.push(world);
        }
    }
    for asked in calls_but_load() {
        assert_eq!(checked_call(&mut sound.clone(), &asked).number, 0);
        for world in &broken {
            expect_refusal(world, &asked, 22);
        }
    }
    for world in broken {
        let loaded = expect_accepted(&world, &Call::Load, 0);
        for tracer in 0..2 {
            let total = world.tracers[6 * tracer + 2];
            assert_eq!(books_of(&loaded, tracer), [total, 0, 0]);
        }
    }
}

/// Left sides that are negative, or that agree with the cells in 32 bits only.
#[test]
fn no_sign_and_no_wrap() {
    let reading = Call::Total { tracer: 0 };
    for (total, books, good) in [
        (100, [0, 0, 4_294_967_196], false),
        (100, [MOST, 101, 0], false),
        (100, [0, MOST, 4_294_967_195], true),
        (101, [MOST, 101, MOST], true),
        (100, [MOST, 0, 4_294_967_195], true),
        (100, [MOST, MOST, MOST], false),
        (MOST_TOTAL, [MOST, MOST_TOTAL, MOST], true),
        (0, [0, 0, 0], true),
        (0, [0, 0, 1], false),
        (0, [0, MOST, MOST], true),
        (0, [0, MOST - 1, MOST], false),
        (0, [MOST, 1, 0], false),
    ] {
        let world = with_books(&world_of_totals(&[total]), 0, books);
        if good {
            expect_accepted(&world, &reading, u64::from(total));
        } else {
            expect_refusal(&world, &reading, 22);
        }
    }
}

/// One kind's calls in the order of its own places, each with the number that it gets in a world
/// where all else is sound.
struct Places {
    tests_limiters: bool,
    calls: Vec<(Call, u32)>,
}

/// Of a kind that tests 21 before 22.
fn moving(calls: Vec<(Call, u32)>) -> Places {
    Places {
        tests_limiters: true,
        calls,
    }
}

/// Of another kind.
fn other(calls: Vec<(Call, u32)>) -> Places {
    Places {
        tests_limiters: false,
        calls,
    }
}

/// The calls of a row: an absent layer, an absent row, then fluxes with the number that they get.
fn row_calls(make: impl Fn(u32, u32, &[i32]) -> Call, fluxes: &[([i32; 4], u32)]) -> Places {
    let far = [1_048_561, 0, 0, 0];
    let mut calls = vec![(make(1, 0, &far), 5), (make(0, 1, &far), 5)];
    let present = |(fluxes, number): &([i32; 4], u32)| (make(0, 0, fluxes), *number);
    calls.extend(fluxes.iter().map(present));
    moving(calls)
}

/// The own places of the calls that test 21 before 22.
fn places_of_moving_calls() -> Vec<Places> {
    let far = ([1_048_561, 0, 0, 0], 8);
    let out = [0, 100, 0, 0];
    let north = |flux: i32| [flux, 0, 0, 0, 0, 0, 0, 0];
    let given = |layer: u32, row: u32, fluxes: &[i32]| zonal_with_count(layer, row, 3, fluxes);
    vec![
        row_calls(zonal, &[far, (out, 9)]),
        row_calls(count_zonal, &[far, (out, 9)]),
        row_calls(given, &[far, (out, 9), ([0; 4], 20)]),
        row_calls(long_zonal, &[far, ([401, 0, 0, 0], 16), (out, 17)]),
        moving(vec![
            (meridional(1, &north(65_536)), 5),
            (meridional(0, &north(65_536)), 8),
            (meridional(0, &north(100)), 10),
        ]),
        moving(vec![
            (remap(&[0, 0, 0, 65_535]), 11),
            (remap(&[0, 0, 0, 65_536]), 0),
        ]),
    ]
}

/// The own places of the others.
fn places_of_other_calls() -> Vec<Places> {
    let cell = |tracer: u32, cell: u32| Call::Cell { tracer, cell };
    vec![
        other(vec![
            (emission(2, 2, MOST), 5),
            (emission(0, 6, MOST), 5),
            (emission(0, 2, MOST_TOTAL - 99), 6),
        ]),
        other(vec![
            (withdrawal(2, 2, MOST), 5),
            (withdrawal(0, 6, MOST), 5),
            (withdrawal(0, 2, 101), 7),
        ]),
        other(vec![(Call::Total { tracer: 2 }, 5)]),
        other(vec![(cell(2, 0), 5), (cell(0, 6), 5)]),
        other(vec![
            (add_emitter(2, 0, 7, 0), 5),
            (add_emitter(0, 6, 7, 0), 5),
            (add_emitter(0, 0, 7, 0), 18),
        ]),
        other(vec![(remove_emitter(2, 8), 5), (remove_emitter(0, 8), 19)]),
        other(vec![(tick(2), 5), (tick(0), 0)]),
        other(vec![(units_a_tick(2), 5), (units_a_tick(0), 0)]),
        other(vec![
            (set_limiter(2, 0, 1, 0), 5),
            (set_limiter(0, 0, 1, 0), 21),
        ]),
    ]
}

/// The sound world with these places broken.
fn broken_at(places: &[u32]) -> World {
    let mut world = sound_world();
    for place in places {
        match place {
            1 => world.grid.w = 3,
            2 => world.ledger.push(0),
            3 => world.air[5] = 0,
            4 => world.tracers[7] = MOST,
            21 => put_limits(&mut world, 1, limits(3, 1, 0)),
            22 => put_books(&mut world, 0, [60, 50, 11]),
            _ => unreachable!("{place} is no place of the world"),
        }
    }
    world
}

/// 1, 2, 3, 4, 21, 22 for calls that move air and the count call, else 1, 2, 3, 4, 22, and then the
/// call's own places: all are broken at first, and mended one after another.
#[test]
fn refusal_22_in_its_place() {
    let others = places_of_other_calls();
    for places in places_of_moving_calls().into_iter().chain(others) {
        let (order, untested): (&[u32], &[u32]) = match places.tests_limiters {
            true => (&[1, 2, 3, 4, 21, 22], &[]),
            false => (&[1, 2, 3, 4, 22], &[21]),
        };
        for (asked, number) in &places.calls {
            for mended in 0..order.len() {
                let world = broken_at(&[&order[mended..], untested].concat());
                expect_refusal(&world, asked, order[mended]);
            }
            let answer = checked_call(&mut broken_at(untested), asked);
            assert_eq!(answer.number, *number, "{asked:?}");
        }
    }
    for mended in 0..4 {
        let order = [1, 2, 3, 4];
        let world = broken_at(&[&order[mended..], &[21, 22]].concat());
        expect_refusal(&world, &Call::Load, order[mended]);
    }
    expect_accepted(&broken_at(&[21, 22]), &Call::Load, 0);
}

/// "6 and 7 are also given when a sum would pass 4,294,967,295": either side of both limits.
#[test]
fn limits_of_the_sums() {
    let world = with_books(&world_of_totals(&[10]), 0, [10, MOST - 5, MOST - 5]);
    let after = expect_accepted(&world, &emission(0, 3, 5), 0);
    assert_eq!(books_of(&after, 0), [10, MOST, MOST - 5]);
    assert_eq!(after.tracers, [0, 0, 10, 5, 0, 0]);
    expect_refusal(&world, &emission(0, 3, 6), 6);
    expect_refusal(&after, &emission(0, 3, 1), 6);
    assert_eq!(expect_accepted(&after, &emission(0, 3, 0), 0), after);
    let after = expect_accepted(&world, &withdrawal(0, 2, 5), 0);
    assert_eq!(books_of(&after, 0), [10, MOST - 5, MOST]);
    assert_eq!(after.tracers, [0, 0, 5, 0, 0, 0]);
    expect_refusal(&world, &withdrawal(0, 2, 6), 7);
    expect_refusal(&after, &withdrawal(0, 2, 1), 7);
    assert_eq!(expect_accepted(&after, &withdrawal(0, 2, 0), 0), after);
    for (units, number) in [([2, 3], 0), ([3, 3], 6), ([0, 5], 0), ([6, 0], 6)] {
        let mut world = world.clone();
        for (id, units) in (0..).zip(units) {
            world = expect_accepted(&world, &add_emitter(0, id, id, units), 0);
        }
        assert_eq!(checked_call(&mut world, &tick(0)).number, number);
        let emitted = if number == 0 { MOST } else { MOST - 5 };
        assert_eq!(books_of(&world, 0), [10, emitted, MOST - 5]);
    }
}

/// "Old answers change": a gas emitted and withdrawn whole in turn.
#[test]
fn the_17th_is_refused() {
    let whole = MOST_TOTAL;
    let (emitted, withdrawn) = (emission(0, 2, whole), withdrawal(0, 2, whole));
    for (loaded, first, second, number) in [
        (0, &emitted, &withdrawn, 6),
        (whole, &withdrawn, &emitted, 7),
    ] {
        let mut world = expect_accepted(&world_of_totals(&[loaded]), &Call::Load, 0);
        for turn in 1..=16 {
            world = expect_accepted(&world, first, 0);
            world = expect_accepted(&world, second, 0);
            assert_eq!(books_of(&world, 0), [loaded, turn * whole, turn * whole]);
        }
        expect_refusal(&world, first, number);
        let part = |amount: u32| match number {
            6 => emission(0, 2, amount),
            _ => withdrawal(0, 2, amount),
        };
        expect_refusal(&world, &part(16), number);
        world = expect_accepted(&world, &part(15), 0);
        expect_refusal(&world, &part(1), number);
        expect_accepted(&world, &part(0), 0);
        world = expect_accepted(&world, &Call::Load, 0);
        expect_accepted(&world, &part(15), 0);
    }
}

/// The units that a tick of this tracer emits.
fn units_of(world: &World, tracer: usize) -> u64 {
    let block = &world.ledger[BLOCK * tracer..];
    (0..block[0] as usize)
        .map(|i| u64::from(block[5 + 3 * i]))
        .sum()
}

/// The tracer, and which of the three sums, that a call would add to, and what.
fn booked(world: &World, asked: &Call) -> Option<(usize, usize, u64)> {
    let present = |tracer: u32| (tracer < world.grid.n).then_some(tracer as usize);
    match *asked {
        Call::Emission { tracer, amount, .. } => Some((present(tracer)?, 1, amount.into())),
        Call::Withdrawal { tracer, amount, .. } => Some((present(tracer)?, 2, amount.into())),
        Call::Tick { tracer } => {
            let tracer = present(tracer)?;
            Some((tracer, 1, units_of(world, tracer)))
        }
        _ => None,
    }
}

/// Whether the sum that the call would add to "would pass 4,294,967,295".
fn passes_a_sum(world: &World, asked: &Call) -> bool {
    booked(world, asked).is_some_and(|(tracer, sum, amount)| {
        u64::from(books_of(world, tracer)[sum]) + amount > u64::from(MOST)
    })
}

/// Any call, a load now and then, and often an emission up to the total's limit or a withdrawal of
/// all that a cell has, so that sums come to their limits.
fn random_booking_call(random: &mut Random, world: &World) -> Call {
    let tracer = random.next() as usize % world.grid.n as usize;
    let amounts = &world.tracers[tracer * cells(&world.grid)..][..cells(&world.grid)];
    let fullest = (0..amounts.len())
        .max_by_key(|&cell| amounts[cell])
        .unwrap();
    let room = (MOST_TRACER - total_of(world, tracer)) as u32;
    let less = random.amount(0, 3);
    match random.next() % 60 {
        0 => Call::Load,
        1..=15 => emission(tracer as u32, fullest as u32, room.saturating_sub(less)),
        16..=30 => {
            let amount = amounts[fullest].saturating_sub(less);
            withdrawal(tracer as u32, fullest as u32, amount)
        }
        31..=33 => {
            let place = BLOCK * tracer + 57 + random.next() as usize % 2;
            let left = MOST - world.ledger[place];
            let amount = left.saturating_add(random.amount(0, 2)).saturating_sub(1);
            if place == BLOCK * tracer + 57 {
                emission(tracer as u32, 0, amount)
            } else {
                withdrawal(tracer as u32, fullest as u32, amount)
            }
        }
        _ => random_call(random, world),
    }
}

/// The history's sums: "an accepted load" begins anew, emissions, ticks and withdrawals add.
fn note_history(history: &mut [[u64; 3]], before: &World, asked: &Call) {
    if *asked == Call::Load {
        for (tracer, sums) in history.iter_mut().enumerate() {
            *sums = [total_of(before, tracer), 0, 0];
        }
    } else if let Some((tracer, sum, amount)) = booked(before, asked) {
        history[tracer][sum] += amount;
    }
}

/// How often each case was met.
#[derive(Default, Debug)]
struct Met {
    accepted: u32,
    emissions: u32,
    withdrawals: u32,
    ticks: u32,
    loads: u32,
    full_emitted: u32,
    full_withdrawn: u32,
    full_ticks: u32,
    sums_at_their_limit: u32,
}

impl Met {
    fn note(&mut self, before: &World, after: &World, asked: &Call, answer: Answer) {
        let full = passes_a_sum(before, asked);
        match (asked, answer.number) {
            (Call::Emission { .. }, 6) if full => self.full_emitted += 1,
            (Call::Withdrawal { .. }, 7) if full => self.full_withdrawn += 1,
            (Call::Tick { .. }, 6) if full => self.full_ticks += 1,
            (Call::Emission { .. }, 0) => self.emissions += 1,
            (Call::Withdrawal { .. }, 0) => self.withdrawals += 1,
            (Call::Tick { .. }, 0) => self.ticks += 1,
            (Call::Load, 0) => self.loads += 1,
            (_, 0) => self.accepted += 1,
            _ => {}
        }
        let at_limit = |t: usize| books_of(after, t)[1..].contains(&MOST);
        self.sums_at_their_limit += u32::from((0..after.grid.n as usize).any(at_limit));
    }

    fn all_above(&self, number: u32) -> bool {
        let bookings = [self.emissions, self.withdrawals, self.ticks, self.loads];
        let full = [self.full_emitted, self.full_withdrawn, self.full_ticks];
        let others = [self.accepted, self.sums_at_their_limit];
        let mut all = bookings.iter().chain(&full).chain(&others);
        all.all(|&met| met > number)
    }
}

/// A small world, so that long lists are cheap.
fn random_small_world(random: &mut Random) -> World {
    let mut world = random_world(random);
    while cells(&world.grid) > 40 {
        world = random_world(random);
    }
    world
}

/// "for a world reached by calls that always holds. The sums equal the history's." So 22 is never
/// given after an accepted load.
#[test]
fn books_of_worlds_reached_by_calls() {
    let mut random = Random::new(81);
    let mut met = Met::default();
    for _ in 0..1_000 {
        let mut world = random_small_world(&mut random);
        assert_eq!(call(&mut world, &Call::Load), accepted(0));
        let mut history = vec![[0; 3]; world.grid.n as usize];
        note_history(&mut history, &world, &Call::Load);
        for _ in 0..300 {
            let asked = random_booking_call(&mut random, &world);
            let before = world.clone();
            let answer = checked_call(&mut world, &asked);
            met.note(&before, &world, &asked, answer);
            assert_ne!(answer.number, 22, "{asked:?}");
            if answer.number == 0 {
                note_history(&mut history, &before, &asked);
            }
            assert!(balanced(&world), "{asked:?}");
            for (tracer, sums) in history.iter().enumerate() {
                assert_eq!(books_of(&world, tracer).map(u64::from), *sums, "{asked:?}");
            }
        }
    }
    println!("{met:?}");
    assert!(met.all_above(100), "{met:?}");
}

/// One number changed to another: an amount of a tracer, or one of a tracer's sums.
fn break_one(random: &mut Random, world: &mut World) {
    let tracer = random.next() as usize % world.grid.n as usize;
    let (list, place) = if random.one_in(2) {
        let place = random.next() as usize % world.tracers.len();
        (&mut world.tracers, place)
    } else {
        let place = BLOCK * tracer + 56 + random.next() as usize % 3;
        (&mut world.ledger, place)
    };
    let old = list[place];
    while list[place] == old {
        list[place] = match random.next() % 5 {
            0 => old.wrapping_add(1),
            1 => old.wrapping_sub(1),
            2 => old ^ (1 << random.between(0, 31)),
            3 => 0,
            _ => (random.next() as u32) >> random.between(0, 31),
        };
    }
}

/// The number of a call in a world with one broken number of a tracer or of its books.
fn number_where_broken(world: &World, asked: &Call) -> u32 {
    let mut tracers = 0..world.grid.n as usize;
    if tracers.any(|tracer| total_of(world, tracer) > MOST_TRACER) {
        4
    } else if *asked == Call::Load {
        0
    } else if is_moving(asked) && limits_of(world, 0).limiter == 0 {
        21
    } else {
        22
    }
}

/// One broken number in a balanced world: every call but a load is refused, with 22 where 1 to 4 and
/// 21 let it pass. A load is accepted, or gets 4.
#[test]
fn one_broken_number_is_22() {
    let mut random = Random::new(82);
    let mut met = [0; 23];
    for _ in 0..4_000 {
        let mut world = random_small_world(&mut random);
        put_random_books(&mut random, &mut world);
        assert!(balanced(&world));
        let mut calls = each_call(&world.grid);
        calls.push(remove_emitter(0, 7));
        calls.push(random_call(&mut random, &world));
        break_one(&mut random, &mut world);
        if random.one_in(8) {
            put_limits(&mut world, 0, limits(0, 0, 0));
        }
        for asked in calls {
            let number = number_where_broken(&world, &asked);
            let answer = checked_call(&mut world.clone(), &asked);
            assert_eq!(answer.number, number, "{asked:?}");
            met[number as usize] += 1;
        }
    }
    println!("{met:?}");
    assert!([0, 4, 21, 22].iter().all(|&number| met[number] > 500));
}

/// The calls that move air, and the count call.
fn is_moving(asked: &Call) -> bool {
    matches!(
        asked,
        Call::Zonal { .. }
            | Call::LongZonal { .. }
            | Call::CountZonal { .. }
            | Call::ZonalWithCount { .. }
            | Call::Meridional { .. }
            | Call::Remap { .. }
    )
}

/// Books that agree with the cells in 32 bits, truly or only so.
fn put_wrapping_books(random: &mut Random, world: &mut World) {
    for tracer in 0..world.grid.n as usize {
        let any = |random: &mut Random| match random.next() % 3 {
            0 => random.amount(0, 1_000),
            1 => MOST - random.amount(0, 1_000),
            _ => random.next() as u32,
        };
        let (loaded, emitted) = (any(random), any(random));
        let total = total_of(world, tracer) as u32;
        let withdrawn = loaded.wrapping_add(emitted).wrapping_sub(total);
        put_books(world, tracer, [loaded, emitted, withdrawn]);
    }
}

/// An accepted call but a load was made in a balanced world, and each accepted call leaves one; in a
/// world that is not balanced a reading gets 22.
#[test]
fn accepted_means_balanced() {
    let mut random = Random::new(83);
    let (mut good, mut bad, mut loads) = (0, 0, 0);
    for _ in 0..40_000 {
        let mut world = random_small_world(&mut random);
        if random.one_in(2) {
            put_wrapping_books(&mut random, &mut world);
        }
        let before = balanced(&world);
        let reading = call(&mut world.clone(), &Call::Total { tracer: 0 });
        assert_eq!(reading.number, if before { 0 } else { 22 });
        let asked = random_booking_call(&mut random, &world);
        let answer = checked_call(&mut world, &asked);
        if answer.number == 0 {
            assert!(before || asked == Call::Load, "{asked:?}");
            assert!(balanced(&world), "{asked:?}");
            good += 1;
            loads += u32::from(!before);
        } else if answer.number == 22 {
            assert!(!before, "{asked:?}");
            bad += 1;
        }
    }
    println!("{good} accepted, {bad} with 22, {loads} loads over broken books");
    assert!(good > 5_000 && bad > 5_000 && loads > 100);
}

/// The numbers of the ledger that are not the books'.
fn without_books(world: &World) -> Vec<u32> {
    let blocks = world.ledger.chunks(BLOCK);
    blocks.flat_map(|block| block[..56].to_vec()).collect()
}

/// A twin whose books begin anew before every call, so that no sum of it comes to its limit: it does
/// what the console did before it had books. Where no sum would pass its limit, answer, count, air,
/// amounts, emitters and limiters are the same; where one would, 6 or 7 is given, unless another
/// place is before it.
#[test]
fn as_before_where_no_sum_passes_its_limit() {
    let mut random = Random::new(84);
    let (mut same, mut full) = (0, 0);
    for _ in 0..1_000 {
        let mut world = random_small_world(&mut random);
        put_random_books(&mut random, &mut world);
        let mut twin = world.clone();
        for _ in 0..200 {
            let asked = random_booking_call(&mut random, &world);
            balance(&mut twin);
            let passes = passes_a_sum(&world, &asked);
            let answer = checked_call(&mut world, &asked);
            if !passes {
                assert_eq!(call(&mut twin, &asked), answer, "{asked:?}");
                same += 1;
            } else if answer.number != 5 {
                let is_withdrawal = matches!(asked, Call::Withdrawal { .. });
                assert_eq!(answer, refused(if is_withdrawal { 7 } else { 6 }));
                full += 1;
            }
            assert_eq!((&world.air, &world.tracers), (&twin.air, &twin.tracers));
            assert_eq!(without_books(&world), without_books(&twin));
        }
    }
    println!("{same} as before, {full} where a sum would pass its limit");
    assert!(same > 50_000 && full > 5_000);
}

/// The books stand at the end of each block and nothing else is written there.
#[test]
fn which_calls_write_the_books() {
    let mut random = Random::new(85);
    for _ in 0..20_000 {
        let mut world = random_small_world(&mut random);
        let before = world.clone();
        let asked = random_booking_call(&mut random, &world);
        let answer = checked_call(&mut world, &asked);
        for tracer in 0..world.grid.n as usize {
            let mut expected = books_of(&before, tracer);
            match booked(&before, &asked) {
                _ if answer.number != 0 => {}
                _ if asked == Call::Load => expected = [total_of(&before, tracer) as u32, 0, 0],
                Some((named, sum, amount)) if named == tracer => expected[sum] += amount as u32,
                _ => {}
            }
            assert_eq!(books_of(&world, tracer), expected, "{asked:?}");
        }
    }
}
