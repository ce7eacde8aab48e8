//! Document 02's count before the sweep and sweep with a given count: beside the single sweep on
//! random worlds, every given count, 20 and its order, calls between the two.

mod common;
use common::books::put_books;
use common::*;
use reference::{call, script, Answer, Call, World};

/// A layer, a row and fluxes, which all three calls take.
#[derive(Clone, Debug)]
struct Press {
    layer: u32,
    row: u32,
    fluxes: Vec<i32>,
}

fn press(layer: u32, row: u32, fluxes: &[i32]) -> Press {
    Press {
        layer,
        row,
        fluxes: fluxes.to_vec(),
    }
}

impl Press {
    fn single(&self) -> Call {
        zonal(self.layer, self.row, &self.fluxes)
    }

    fn first(&self) -> Call {
        count_zonal(self.layer, self.row, &self.fluxes)
    }

    fn second(&self, given: u32) -> Call {
        zonal_with_count(self.layer, self.row, given, &self.fluxes)
    }
}

/// 0 to 20, numbers that end in a count's low 8 or 16 bits, and the largest.
fn given_counts() -> impl Iterator<Item = u32> {
    let low_bits = (1..=16).flat_map(|n| [(1 << 8) + n, (1 << 16) + n]);
    (0..=20).chain(low_bits).chain([u32::MAX])
}

/// The sweep with any count but the right one: 20 where the single sweep is accepted, else what
/// the single sweep gets.
fn expect_other_counts_refused(world: &World, press: &Press, single: Answer) {
    let other = |given: &u32| single != accepted(u64::from(*given));
    let number = if single.number == 0 {
        20
    } else {
        single.number
    };
    for given in given_counts().filter(other) {
        expect_refusal(world, &press.second(given), number);
    }
}

/// "Made one after the other with the same layer, row and fluxes, the first's count given to the
/// second and no call between, they leave what the single sweep leaves, and both give its answer
/// and count." Only that count is accepted. Gives the single sweep's answer and what it leaves.
fn expect_presses(world: &World, press: &Press) -> (Answer, World) {
    let mut swept = world.clone();
    let single = checked_call(&mut swept, &press.single());
    let mut pressed = world.clone();
    let first = call(&mut pressed, &press.first());
    assert_eq!(first, single, "{press:?}");
    assert_eq!(pressed, *world, "{press:?}");
    let second = call(&mut pressed, &press.second(first.count as u32));
    assert_eq!(second, single, "{press:?}");
    assert_eq!(pressed, swept, "{press:?}");
    expect_other_counts_refused(world, press, single);
    (single, swept)
}

/// Both presses are accepted with this count; the world after them.
fn expect_count(world: &World, press: &Press, count: u64) -> World {
    let (answer, swept) = expect_presses(world, press);
    assert_eq!(answer, accepted(count), "{press:?}");
    swept
}

/// Both presses get this refusal, the second with any count.
fn expect_number(world: &World, press: &Press, number: u32) {
    let (answer, _) = expect_presses(world, press);
    assert_eq!(answer, refused(number), "{press:?}");
}

#[test]
fn m1_m6_m7_and_m8() {
    let m1 = expect_count(&row_of_four(), &press(0, 0, &[0, 50, 0, 0]), 1);
    assert_eq!(m1, row_world([100, 50, 150, 100], [0, 38, 262, 100]));
    let even = row_world([100; 4], [300; 4]);
    for sign in [1, -1] {
        let m6 = press(0, 0, &[sign * 150; 4]);
        assert_eq!(expect_count(&even, &m6, 2), even);
        let m7 = press(0, 0, &[sign * 1_600; 4]);
        assert_eq!(expect_count(&even, &m7, 16), even);
        // 17 would serve.
        expect_number(&even, &press(0, 0, &[sign * 1_601; 4]), 9);
    }
    expect_number(&row_of_four(), &press(0, 0, &[0, 100, 0, 0]), 9);
}

/// A row of five whose cells are all given east 16 times, so one column on.
#[test]
fn sixteen_substeps_move_the_row() {
    let mut world = even_world(grid(5, 1, 1, 1), 100);
    world.tracers[1..6].copy_from_slice(&[0, 100, 200, 100, 37]);
    balance(&mut world);
    let after = expect_count(&world, &press(0, 0, &[1_600; 5]), 16);
    world.tracers[1..6].rotate_right(1);
    assert_eq!(after, world);
}

/// Only the smallest count is accepted, whichever others serve.
#[test]
fn counts_that_serve_and_are_not_the_smallest() {
    let world = row_world([1, 1_000, 1_000, 1_000], [5, 700, 300, 900]);
    // Only 14 serves.
    let after = expect_count(&world, &press(0, 0, &[20, 0, 0, 21]), 14);
    let row = [1, 712, 300, 892];
    assert_eq!(after, row_world([2, 1_020, 1_000, 979], row));
    // 5 serves, 6 does not, 7 to 16 do.
    let five = press(0, 0, &[9, 0, 0, 10]);
    let after = expect_count(&world, &five, 5);
    assert_eq!(after, row_world([2, 1_009, 1_000, 990], [1, 710, 300, 894]));
    // In the world that this leaves 4 to 16 serve.
    expect_count(&after, &five, 4);
    // All serve.
    let still = press(0, 0, &[0; 4]);
    assert_eq!(expect_count(&world, &still, 1), world);
}

#[test]
fn either_side_of_the_largest_flux() {
    let world = row_world([65_535; 4], [7, 65_535, 100_000, 60_000_000]);
    for sign in [1, -1] {
        expect_count(&world, &press(0, 0, &[sign * 1_048_560; 4]), 16);
        for i in 0..4 {
            let mut fluxes = [sign * 1_048_560; 4];
            fluxes[i] = sign * 1_048_561;
            expect_number(&world, &press(0, 0, &fluxes), 8);
        }
    }
    expect_number(&world, &press(0, 0, &[0, i32::MIN, 0, 0]), 8);
    expect_number(&world, &press(0, 0, &[0, 0, 0, i32::MAX]), 8);
}

/// Places 1, 2, 3, 4, 22, 5, 8, 9 and 20: all apply at first, and are mended one after another.
#[test]
fn places_in_order() {
    let mut world = row_of_four();
    world.grid.w = 3;
    world.air[0] = 0;
    world.tracers[5] = u32::MAX;
    let mut press = press(1, 1, &[i32::MIN; 5]);
    expect_number(&world, &press, 1);
    world.grid.w = 4;
    expect_number(&world, &press, 2);
    press.fluxes.pop();
    expect_number(&world, &press, 3);
    world.air[0] = 100;
    expect_number(&world, &press, 4);
    world.tracers[5] = 0;
    put_books(&mut world, 0, [399, 0, 0]);
    expect_number(&world, &press, 22);
    balance(&mut world);
    expect_number(&world, &press, 5);
    press.layer = 0;
    expect_number(&world, &press, 5);
    press.row = 0;
    expect_number(&world, &press, 8);
    press.fluxes = vec![1_048_560, 0, 0, 0];
    expect_number(&world, &press, 9);
    press.fluxes = vec![150; 4];
    expect_count(&world, &press, 2);
}

/// Each place with 20 alone: the given count is never the right one.
#[test]
fn each_place_comes_before_20() {
    let expect = |change: fn(&mut World, &mut Press), number: u32| {
        let (mut world, mut press) = (row_of_four(), press(0, 0, &[150; 4]));
        change(&mut world, &mut press);
        balance(&mut world);
        for given in given_counts().filter(|&given| given != 2) {
            expect_refusal(&world, &press.second(given), number);
        }
    };
    expect(|_, _| {}, 20);
    expect(|world, _| world.grid.r = 0, 1);
    expect(|world, _| world.grid.n = 9, 1);
    expect(|world, _| world.air.push(100), 2);
    expect(|world, _| world.tracers.truncate(5), 2);
    expect(|world, _| world.ledger.push(0), 2);
    expect(|_, press| press.fluxes.push(150), 2);
    expect(|_, press| press.fluxes.truncate(3), 2);
    expect(|world, _| world.air[5] = 65_536, 3);
    expect(|world, _| world.air[0] = 0, 3);
    expect(|world, _| world.tracers[0] = MOST_TRACER as u32 - 399, 4);
    expect(|world, _| world.tracers[0] = MOST_TRACER as u32 - 400, 20);
    expect(|_, press| press.layer = 1, 5);
    expect(|_, press| press.row = u32::MAX, 5);
    expect(|_, press| press.fluxes[3] = -1_048_561, 8);
    expect(|_, press| press.fluxes[3] = -1_048_560, 9);
}

/// Two rows, layers and tracers, with other air in every row.
fn uneven_world() -> World {
    let air = [
        [138, 53, 33, 41, 48, 61, 64, 96, 55, 72],
        [97, 45, 28, 39, 38, 122, 109, 120, 115, 85],
    ];
    let tracers = (0..40).map(|place| place * 37 % 251).collect();
    world_of(grid(4, 2, 2, 2), air.concat(), tracers)
}

#[test]
fn each_row_has_its_own_count() {
    let world = uneven_world();
    let fluxes = [101, 98, 105, 96];
    for (layer, row, count) in [(0, 0, 3), (0, 1, 2), (1, 0, 4), (1, 1, 1)] {
        let after = expect_count(&world, &press(layer, row, &fluxes), count);
        let first = (10 * layer + 1 + 4 * row) as usize;
        let changed = |before: &[u32], after: &[u32]| -> Vec<usize> {
            (0..before.len())
                .filter(|&place| before[place] != after[place])
                .collect()
        };
        let cells: Vec<usize> = (first..first + 4).collect();
        assert_eq!(changed(&world.air, &after.air), cells);
        // Each tracer has 20 amounts.
        let amounts: Vec<usize> = (first..first + 4).chain(first + 20..first + 24).collect();
        assert_eq!(changed(&world.tracers, &after.tracers), amounts);
    }
    expect_number(&world, &press(2, 1, &fluxes), 5);
    expect_number(&world, &press(1, 2, &fluxes), 5);
}

/// The count is that of the world at the second press.
#[test]
fn a_sweep_of_the_row_between() {
    let all = press(0, 0, &[150; 4]);
    let before = row_of_four();
    expect_count(&before, &all, 2);
    // Column 0 is left with 50 units of air, and 2 does not serve.
    let after = expect_accepted(&before, &zonal(0, 0, &[50, 0, 0, 0]), 1);
    expect_refusal(&after, &all.second(2), 20);
    expect_count(&after, &all, 3);
    // And back: 3 still serves.
    let after = expect_accepted(&after, &zonal_with_count(0, 0, 1, &[-50, 0, 0, 0]), 1);
    expect_refusal(&after, &all.second(3), 20);
    expect_count(&after, &all, 2);
    let after = expect_accepted(&before, &meridional(0, &[-50, 0, 0, 0, 0, 0, 0, 0]), 1);
    expect_refusal(&after, &all.second(2), 20);
    expect_count(&after, &all, 3);
}

#[test]
fn the_same_press_twice() {
    let east = press(0, 0, &[170, 150, 160, 140]);
    let west = press(0, 0, &[-170, -151, -160, -143]);
    let world = row_world([90, 120, 60, 130], [40, 300, 5, 170]);
    let after = expect_accepted(&world, &east.second(3), 3);
    expect_refusal(&after, &east.second(3), 20);
    expect_accepted(&after, &east.second(5), 5);
    let after = expect_accepted(&world, &west.second(3), 3);
    expect_accepted(&after, &west.second(3), 3);
    // A cell with 50 units of air left would give all of them.
    let m1 = press(0, 0, &[0, 50, 0, 0]);
    let after = expect_accepted(&row_of_four(), &m1.second(1), 1);
    expect_number(&after, &m1, 9);
    let all = press(0, 0, &[150; 4]);
    let after = expect_accepted(&row_of_four(), &all.second(2), 2);
    assert_eq!(after, row_world([100; 4], [163, 44, 38, 155]));
    let after = expect_accepted(&after, &all.second(2), 2);
    assert_eq!(after, row_world([100; 4], [94, 157, 107, 42]));
}

/// A place of a list.
fn place_in(random: &mut Random, list: &[u32]) -> usize {
    random.next() as usize % list.len()
}

/// A world and a press; now and then with faults in either.
fn random_press(random: &mut Random) -> (World, Press) {
    let mut world = random_world(random);
    let (layer, row, fluxes) = random_row(random, &world, random_row_fluxes);
    let mut press = press(layer, row, &fluxes);
    if random.one_in(40) {
        let place = random.next() as usize % fluxes.len();
        let size = 1_048_560 + random.amount(0, 2) as i32;
        press.fluxes[place] = if random.one_in(2) { size } else { -size };
    }
    if random.one_in(40) {
        let place = place_in(random, &world.tracers);
        world.tracers[place] = u32::MAX - random.amount(0, 9);
    }
    if random.one_in(40) {
        let place = place_in(random, &world.tracers);
        world.tracers[place] = world.tracers[place].saturating_sub(1);
    }
    if random.one_in(40) {
        let place = place_in(random, &world.air);
        world.air[place] = if random.one_in(2) { 0 } else { 65_536 };
    }
    match random.next() % 200 {
        0 => world.air.push(100),
        1 => world.tracers.truncate(world.tracers.len() - 1),
        2 => world.ledger.push(0),
        3 => press.fluxes.push(0),
        4 => press.fluxes.truncate(fluxes.len() - 1),
        5 => press.fluxes.clear(),
        6 => world.grid.w = 3,
        7 => world.grid.k = 33,
        8 => world.grid.n = 0,
        _ => {}
    }
    (world, press)
}

#[test]
fn two_presses_are_the_single_sweep_on_random_worlds() {
    let mut random = Random::new(51);
    let mut met = [0; 23];
    let mut counts = [0; 17];
    for _ in 0..10_000 {
        let (world, press) = random_press(&mut random);
        let (answer, _) = expect_presses(&world, &press);
        met[answer.number as usize] += 1;
        counts[answer.count as usize] += 1;
    }
    for number in [1, 2, 3, 4, 5, 8, 9, 22] {
        assert!(met[number] > 100, "{met:?}");
    }
    assert!(counts[1..].iter().all(|&met| met > 50), "{counts:?}");
}

/// Whether a call of this kind leaves the air of the press's row as it is.
fn leaves_the_row(asked: &Call, press: &Press) -> bool {
    match *asked {
        Call::Zonal { layer, row, .. }
        | Call::LongZonal { layer, row, .. }
        | Call::ZonalWithCount { layer, row, .. } => (layer, row) != (press.layer, press.row),
        Call::Meridional { layer, .. } => layer != press.layer,
        Call::Remap { .. } => false,
        _ => true,
    }
}

/// The accepted calls that were met between two presses, by kind.
#[derive(Default, Debug)]
struct Between {
    emissions: u32,
    withdrawals: u32,
    ticks: u32,
    sweeps: u32,
    long_sweeps: u32,
    presses: u32,
    meridional: u32,
    refused: u32,
}

impl Between {
    fn note(&mut self, asked: &Call, answer: Answer) {
        match asked {
            _ if answer.number != 0 => self.refused += 1,
            Call::Emission { .. } => self.emissions += 1,
            Call::Withdrawal { .. } => self.withdrawals += 1,
            Call::Tick { .. } => self.ticks += 1,
            Call::Zonal { .. } => self.sweeps += 1,
            Call::LongZonal { .. } => self.long_sweeps += 1,
            Call::ZonalWithCount { .. } => self.presses += 1,
            Call::Meridional { .. } => self.meridional += 1,
            _ => {}
        }
    }

    fn all_above(&self, number: u32) -> bool {
        let sweeps = [self.sweeps, self.long_sweeps, self.presses, self.meridional];
        let others = [self.emissions, self.withdrawals, self.ticks, self.refused];
        sweeps.iter().chain(&others).all(|&met| met > number)
    }
}

/// Emissions, withdrawals, ticks, readings, refused calls, and sweeps of other rows or layers
/// between the presses: the first's answer stands.
#[test]
fn calls_that_leave_the_row_leave_the_count() {
    let mut random = Random::new(52);
    let mut met = Between::default();
    for _ in 0..4_000 {
        let mut world = random_world(&mut random);
        let (layer, row, fluxes) = random_row(&mut random, &world, random_row_fluxes);
        let press = press(layer, row, &fluxes);
        let shown = call(&mut world, &press.first());
        for _ in 0..10 {
            let asked = random_call(&mut random, &world);
            if leaves_the_row(&asked, &press) {
                let answer = checked_call(&mut world, &asked);
                met.note(&asked, answer);
                assert_eq!(call(&mut world, &press.first()), shown, "{asked:?}");
            }
        }
        let (answer, _) = expect_presses(&world, &press);
        assert_eq!(answer, shown);
    }
    assert!(met.all_above(200), "{met:?}");
}

/// The inputs of the cases y5-1, y5-2, .. of the model's table, and what this implementation answers.
#[test]
fn cases_of_the_presses_answer_as_stored() {
    let outcome = script::run(include_str!("../cases/presses.txt"));
    assert_eq!(outcome.error, None);
    assert_eq!(outcome.lines, include_str!("../cases/presses.out"));
}
