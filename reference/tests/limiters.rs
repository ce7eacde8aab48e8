//! Document 02's limiter for each gas: the stored cases, the three rules, 21 and the setting call,
//! and on random worlds with a random limiter for each tracer what is wanted "once over all three".

mod common;
use common::limits::{limits, limits_of, put_limits, put_random_limits, ratios, Limits, FIRST};
use common::range::{self, Written};
use common::*;
use reference::scheme::{mismatch, piece_from_high_end, piece_from_low_end, ratio, SCALE};
use reference::{call, script, Answer, Call, World};

const MOST: u64 = u64::MAX;

/// The inputs of the cases y7-1, y7-2, .. of request 7, and what this implementation answers.
#[test]
fn cases_of_the_limiters_answer_as_stored() {
    let outcome = script::run(include_str!("../cases/limiters.txt"));
    assert_eq!(outcome.error, None);
    assert_eq!(outcome.lines, include_str!("../cases/limiters.out"));
}

/// The tracer's amounts in the row of four after this call, from this row with air 100 in each cell.
fn row_after(tracer: [u32; 4], limits: Limits, asked: &Call) -> [u32; 4] {
    let mut world = row_world([100; 4], tracer);
    put_limits(&mut world, 0, limits);
    assert_eq!(checked_call(&mut world, asked).number, 0);
    world.tracers[1..5].try_into().unwrap()
}

/// A row of four, its limiter and the column that gives 50 units of air east; the row after a zonal
/// sweep, and after a long one, whose pieces are from the low end.
type GivenRow = ([u32; 4], (u32, u64, u64), usize, [u32; 4], [u32; 4]);

/// The zonal sweeps were given with the task, and of the long ones those of the second limiter.
#[rustfmt::skip]
const GIVEN_ROWS: [GivenRow; 11] = [
    ([0, 300, 200, 50], (1, 0, 0), 1, [0, 150, 350, 50], [0, 150, 350, 50]),
    ([0, 300, 200, 50], (2, 0, 0), 1, [0, 138, 362, 50], [0, 137, 363, 50]),
    ([0, 300, 200, 50], (3, 0, MOST), 1, [0, 138, 362, 50], [0, 137, 363, 50]),
    ([0, 300, 200, 50], (3, 0, 851_968), 1, [0, 144, 356, 50], [0, 143, 357, 50]),
    ([0, 300, 200, 50], (3, 786_432, 786_432), 1, [0, 150, 350, 50], [0, 150, 350, 50]),
    ([0, 300, 200, 50], (1, 0, 0), 2, [0, 300, 116, 134], [0, 300, 115, 135]),
    ([0, 300, 200, 50], (2, 0, 0), 2, [0, 300, 116, 134], [0, 300, 115, 135]),
    ([0, 300, 200, 50], (3, 786_432, 786_432), 2, [0, 300, 100, 150], [0, 300, 100, 150]),
    ([300, 10, 100, 0], (1, 0, 0), 1, [300, 5, 105, 0], [300, 5, 105, 0]),
    ([300, 10, 100, 0], (2, 0, 0), 1, [300, 8, 102, 0], [300, 7, 103, 0]),
    ([300, 10, 100, 0], (3, 13_107, MOST), 1, [300, 7, 103, 0], [300, 6, 104, 0]),
];

#[test]
fn rows_under_each_limiter() {
    for (tracer, (limiter, lo, hi), column, swept, long) in GIVEN_ROWS {
        let limits = limits(limiter, lo, hi);
        let mut fluxes = [0; 4];
        fluxes[column] = 50;
        assert_eq!(row_after(tracer, limits, &zonal(0, 0, &fluxes)), swept);
        let pressed = zonal_with_count(0, 0, 1, &fluxes);
        assert_eq!(row_after(tracer, limits, &pressed), swept);
        assert_eq!(row_after(tracer, limits, &long_zonal(0, 0, &fluxes)), long);
    }
}

/// "The range claim covers the first only": air 24 and tracer 41 are above it.
#[test]
fn the_second_and_the_third_leave_the_range() {
    for (limits, tracer) in [(FIRST, 39), (limits(2, 0, 0), 41), (limits(3, 0, MOST), 41)] {
        let mut before = row_world([47, 6, 38, 39], [26, 3, 60, 58]);
        put_limits(&mut before, 0, limits);
        let sweep = zonal(0, 0, &[19, -13, 1, -12]);
        let after = expect_accepted(&before, &sweep, 1);
        assert_eq!((after.air[3], after.tracers[3]), (24, tracer));
        let written = range::of_zonal_substep(&before, &after, 0, 0);
        assert_eq!(written[2].within_quarters(9), tracer == 39);
        written.iter().for_each(Written::expect_claims);
    }
}

/// The promise of the fixed limiter is for one substep: each piece of 1 unit of air has 0.5 units of
/// tracer, cut to 0, under every limiter.
#[test]
fn five_hundred_sweeps_double_the_ratio() {
    for limits in [
        limits(3, 131_072, 131_072),
        FIRST,
        limits(2, 0, 0),
        limits(3, 0, MOST),
    ] {
        let mut world = row_world([1_000; 4], [500; 4]);
        put_limits(&mut world, 0, limits);
        for _ in 0..500 {
            assert_eq!(call(&mut world, &zonal(0, 0, &[0, 1, 0, 0])), accepted(1));
        }
        assert_eq!(world.air[1..5], [1_000, 500, 1_500, 1_000]);
        assert_eq!(world.tracers[1..5], [500; 4]);
    }
}

/// The six calls that test 21, with arguments that fit.
fn testing_calls(world: &World) -> Vec<Call> {
    let row = vec![0; world.grid.w as usize];
    vec![
        zonal(0, 0, &row),
        long_zonal(0, 0, &row),
        count_zonal(0, 0, &row),
        zonal_with_count(0, 0, 1, &row),
        meridional(0, &vec![0; (world.grid.w * (world.grid.r + 1)) as usize]),
        remap(&even_table(world.grid.k)),
    ]
}

/// Bounds with lo above hi, and bounds with lo at most hi.
fn bounds() -> (Vec<(u64, u64)>, Vec<(u64, u64)>) {
    let half = 1 << 32;
    let bad = [
        (1, 0),
        (half, half - 1),
        (MOST, MOST - 1),
        (2 * half + 5, half + 5),
        (half, 1),
        (1 << 63, (1 << 63) - 1),
        (MOST, 0),
    ];
    let mut good = vec![(0, 0), (1, half), (MOST, MOST), (5, 5)];
    good.extend(bad.map(|(lo, hi)| (hi, lo)));
    (bad.to_vec(), good)
}

fn small_world() -> World {
    even_world(grid(4, 1, 2, 3), 100)
}

/// "21 when a tracer's limiter is unknown or its lo exceeds its hi", in any tracer.
#[test]
fn refusal_21_for_what_stands() {
    let (bad, good) = bounds();
    for tracer in 0..3 {
        let with = |limits: Limits| {
            let mut world = small_world();
            put_limits(&mut world, tracer, limits);
            world
        };
        for asked in testing_calls(&small_world()) {
            for number in [0, 4, 257, 65_537, 1 << 31, u32::MAX] {
                expect_refusal(&with(limits(number, 0, 0)), &asked, 21);
                expect_refusal(&with(limits(number, 0, MOST)), &asked, 21);
            }
            for number in 1..=3 {
                for &(lo, hi) in &bad {
                    expect_refusal(&with(limits(number, lo, hi)), &asked, 21);
                }
                for &(lo, hi) in &good {
                    let mut world = with(limits(number, lo, hi));
                    assert_eq!(checked_call(&mut world, &asked).number, 0);
                }
            }
        }
    }
}

/// The other calls do not test it, the setting call of the same tracer included.
#[test]
fn no_other_call_tests_what_stands() {
    for broken in [limits(0, 0, 0), limits(4, 9, 3), limits(3, 1, 0)] {
        let mut world = small_world();
        for tracer in 0..3 {
            put_limits(&mut world, tracer, broken);
        }
        let testing = testing_calls(&world);
        let calls = each_call(&world.grid);
        let others: Vec<&Call> = calls.iter().filter(|it| !testing.contains(it)).collect();
        assert_eq!(others.len(), calls.len() - 6);
        for asked in others {
            let mut copy = world.clone();
            assert_eq!(checked_call(&mut copy, asked).number, 0, "{asked:?}");
        }
        assert_eq!(expect_accepted(&world, &Call::Load, 0), small_world());
    }
}

/// The places of the setting call: 1, 2, 3, 4, 5, 21; what is given is stored as given, and nothing
/// else is written.
#[test]
fn the_setting_call() {
    let (bad, good) = bounds();
    let mut world = small_world();
    world.ledger[63..93].copy_from_slice(&[9; 30]);
    put_limits(&mut world, 1, limits(7, 6, 5));
    for number in 1..=3 {
        for &(lo, hi) in &bad {
            expect_refusal(&world, &set_limiter(1, number, lo, hi), 21);
            expect_refusal(&world, &set_limiter(3, number, lo, hi), 5);
        }
        for &(lo, hi) in &good {
            for tracer in 0..3 {
                let after = expect_accepted(&world, &set_limiter(tracer, number, lo, hi), 0);
                let mut expected = world.clone();
                put_limits(&mut expected, tracer as usize, limits(number, lo, hi));
                assert_eq!(after, expected);
            }
            expect_refusal(&world, &set_limiter(3, number, lo, hi), 5);
            expect_refusal(&world, &set_limiter(u32::MAX, number, lo, hi), 5);
        }
    }
    for number in [0, 4, 258, 1 << 31, u32::MAX] {
        expect_refusal(&world, &set_limiter(1, number, 0, 0), 21);
        expect_refusal(&world, &set_limiter(3, number, 0, 0), 5);
    }
    world.tracers[0] = u32::MAX;
    expect_refusal(&world, &set_limiter(3, 0, 1, 0), 4);
    world.air[0] = 0;
    expect_refusal(&world, &set_limiter(3, 0, 1, 0), 3);
    world.ledger.pop();
    expect_refusal(&world, &set_limiter(3, 0, 1, 0), 2);
    world.grid.n = 0;
    expect_refusal(&world, &set_limiter(3, 0, 1, 0), 1);
}

/// 21 comes after 4 and before 5, 8, 9, 10, 11, 12, 16, 17 and 20.
#[test]
fn refusal_21_in_its_place() {
    let sound = small_world();
    let mut broken = sound.clone();
    put_limits(&mut broken, 2, limits(0, 0, 0));
    let far = [1_048_561, 0, 0, 0];
    for (asked, number) in [
        (zonal(2, 0, &[0; 4]), 5),
        (zonal(0, 1, &far), 5),
        (zonal(0, 0, &far), 8),
        (zonal(0, 0, &[100, 0, 0, 0]), 9),
        (count_zonal(0, 1, &[0; 4]), 5),
        (count_zonal(0, 0, &far), 8),
        (count_zonal(0, 0, &[100, 0, 0, 0]), 9),
        (zonal_with_count(0, 1, 1, &[0; 4]), 5),
        (zonal_with_count(0, 0, 1, &far), 8),
        (zonal_with_count(0, 0, 1, &[100, 0, 0, 0]), 9),
        (zonal_with_count(0, 0, 2, &[0; 4]), 20),
        (long_zonal(0, 1, &[0; 4]), 5),
        (long_zonal(0, 0, &far), 8),
        (long_zonal(0, 0, &[401, 0, 0, 0]), 16),
        (long_zonal(0, 0, &[100, 0, 0, 0]), 17),
        (meridional(2, &[0; 8]), 5),
        (meridional(0, &[65_536, 0, 0, 0, 0, 0, 0, 0]), 8),
        (meridional(0, &[100, 0, 0, 0, 0, 0, 0, 0]), 10),
        (remap(&[0, 0, 0, 9, 0, 65_535]), 11),
        (remap(&[0, 0, 0, 0, 0, 65_536]), 12),
    ] {
        expect_refusal(&sound, &asked, number);
        expect_refusal(&broken, &asked, 21);
    }
    for asked in testing_calls(&broken) {
        let mut world = broken.clone();
        world.tracers[35] = u32::MAX;
        expect_refusal(&world, &asked, 4);
        world.air[11] = 65_536;
        expect_refusal(&world, &asked, 3);
        world.ledger.push(0);
        expect_refusal(&world, &asked, 2);
    }
}

/// The size of the mismatch with its own arithmetic.
fn size_of(limits: &Limits, qa: i64, q: i64, qb: i64) -> i128 {
    let [qa, q, qb] = [qa, q, qb].map(i128::from);
    let half = (qb - qa).abs() / 2;
    let (least, greatest) = match limits.limiter {
        1 => (qa.min(q).min(qb), qa.max(q).max(qb)),
        2 => return half.min(2 * q),
        _ => (i128::from(limits.lo), i128::from(limits.hi)),
    };
    [half, 2 * (q - least), 2 * (greatest - q)]
        .into_iter()
        .min()
        .unwrap()
        .max(0)
}

/// A ratio of a size that a world has, mostly near the others.
fn random_ratio(random: &mut Random, near: i64) -> i64 {
    let most = ratio(1, MOST_TRACER as i64);
    let found = match random.next() % 5 {
        0 => random.between(0, most),
        1 => random.between(0, 1_000_000),
        2 => near + random.between(-3, 3),
        3 => near + random.between(-300_000, 300_000),
        _ => near / random.between(1, 5),
    };
    found.clamp(0, most)
}

/// A bound near a ratio or far from all.
fn random_bound(random: &mut Random, near: i64) -> u64 {
    match random.next() % 6 {
        0 => 0,
        1 => MOST,
        2 => random.next() << random.between(0, 16),
        3 => (1 << 63) + random_ratio(random, near) as u64,
        _ => random_ratio(random, near) as u64,
    }
}

/// "Where lo is at most the least and hi at least the greatest, the sizes never fall from the first
/// to the third to the second." The third is never above the second, whatever its bounds.
#[test]
fn sizes_from_the_first_to_the_third_to_the_second() {
    let mut random = Random::new(71);
    let (mut ordered, mut strict) = (0, [0; 2]);
    for _ in 0..2_000_000 {
        let near = random_ratio(&mut random, 262_144);
        let [qa, q, qb] = [(); 3].map(|()| random_ratio(&mut random, near));
        let (one, other) = (
            random_bound(&mut random, near),
            random_bound(&mut random, near),
        );
        let limits = [
            FIRST,
            limits(2, 0, 0),
            limits(3, one.min(other), one.max(other)),
        ];
        let size = |limits: &Limits| {
            let d = mismatch(&limits.limiter(), qa, q, qb);
            assert_eq!(d.signum() * (qb - qa).signum(), d.signum().abs());
            assert_eq!(i128::from(d.abs()), size_of(limits, qa, q, qb));
            d.abs()
        };
        let [first, second, third] = [0, 1, 2].map(|i| size(&limits[i]));
        assert!(third <= second && first <= second);
        let (least, greatest) = (qa.min(q).min(qb) as u64, qa.max(q).max(qb) as u64);
        if limits[2].lo <= least && greatest <= limits[2].hi {
            assert!(first <= third);
            ordered += 1;
            strict[0] += u32::from(first < third);
            strict[1] += u32::from(third < second);
        }
    }
    println!("{ordered} ordered, {strict:?} strictly");
    assert!(ordered > 100_000 && strict[0] > 10_000 && strict[1] > 1_000);
}

/// "no piece above what the cell has": from either end, and from both together.
#[test]
fn no_piece_above_what_the_cell_has() {
    let mut random = Random::new(72);
    for _ in 0..1_000_000 {
        let air = match random.next() % 3 {
            0 => random.between(1, 9),
            1 => random.between(1, 300),
            _ => random.between(1, 65_535),
        };
        let tracer = random.between(0, MOST_TRACER as i64) >> random.between(0, 28);
        let q = ratio(air, tracer);
        let (qa, qb) = (random_ratio(&mut random, q), random_ratio(&mut random, q));
        let (one, other) = (random_bound(&mut random, q), random_bound(&mut random, q));
        let number = random.amount(1, 3);
        let limits = limits(number, one.min(other), one.max(other));
        let d = mismatch(&limits.limiter(), qa, q, qb);
        let east = random.between(0, air);
        let west = match random.next() % 2 {
            0 => air - east,
            _ => random.between(0, air - east),
        };
        let high = piece_from_high_end(air, tracer, d, east);
        let low = piece_from_low_end(air, tracer, d, west);
        assert!(0 <= high && 0 <= low && high + low <= tracer, "{limits:?}");
        assert_eq!(piece_from_high_end(air, tracer, d, air), tracer);
        assert_eq!(piece_from_low_end(air, tracer, d, air), tracer);
    }
}

/// A row after one substep with its own arithmetic.
fn row_by_hand(limits: &Limits, air: &[u32], tracer: &[u32], fluxes: &[i32]) -> Vec<u32> {
    let columns = air.len();
    let q = |i: usize| ratio(air[i % columns].into(), tracer[i % columns].into());
    let mut after: Vec<i128> = tracer.iter().map(|&t| i128::from(t)).collect();
    for (i, &flux) in fluxes.iter().enumerate() {
        let east = (i + 1) % columns;
        let (giver, taker) = if flux > 0 { (i, east) } else { (east, i) };
        let (low, high) = (q(giver + columns - 1), q(giver + 1));
        let d = size_of(limits, low, q(giver), high) * i128::from((high - low).signum());
        let d = d * i128::from(flux.signum());
        let (m, air) = (i128::from(flux.unsigned_abs()), i128::from(air[giver]));
        let twice = 2 * i128::from(SCALE);
        let whole = twice * m * i128::from(tracer[giver]) + d * m * (air - m);
        let piece = whole.div_euclid(twice * air);
        after[giver] -= piece;
        after[taker] += piece;
    }
    after.iter().map(|&amount| amount as u32).collect()
}

#[test]
fn random_rows_by_hand() {
    let mut random = Random::new(73);
    let mut met = [0; 4];
    for _ in 0..60_000 {
        let world = random_limited_world(&mut random);
        let (layer, row, fluxes) = random_row(&mut random, &world, random_row_fluxes);
        let mut after = world.clone();
        if call(&mut after, &zonal(layer, row, &fluxes)) != accepted(1) {
            continue;
        }
        let (all, w) = (cells(&world.grid), world.grid.w as usize);
        let first = layer as usize * layer_cells(&world.grid) + 1 + row as usize * w;
        for t in 0..world.grid.n as usize {
            let limits = limits_of(&world, t);
            let old = &world.tracers[t * all + first..t * all + first + w];
            let by_hand = row_by_hand(&limits, &world.air[first..first + w], old, &fluxes);
            assert_eq!(after.tracers[t * all + first..t * all + first + w], by_hand);
            met[limits.limiter as usize] += 1;
        }
    }
    assert!(met[1..].iter().all(|&met| met > 5_000), "{met:?}");
}

/// A world of any kind with a random limiter for each tracer.
fn random_limited_world(random: &mut Random) -> World {
    let mut world = match random.next() % 4 {
        0 => random_thin_world(random),
        1 => random_extreme_world(random),
        _ => random_world(random),
    };
    put_random_limits(random, &mut world);
    world
}

/// A call that moves air, or the count call.
fn random_moving_call(random: &mut Random, world: &World) -> Call {
    loop {
        let asked = random_call(random, world);
        if moves_or_counts(&asked) {
            return asked;
        }
    }
}

fn moves_or_counts(asked: &Call) -> bool {
    matches!(
        asked,
        Call::Zonal { .. }
            | Call::LongZonal { .. }
            | Call::CountZonal { .. }
            | Call::ZonalWithCount { .. }
            | Call::Meridional { .. }
            | Call::Remap { .. }
    )
}

/// The amounts of one tracer.
fn tracer(world: &World, t: usize) -> &[u32] {
    let cells = cells(&world.grid);
    &world.tracers[t * cells..(t + 1) * cells]
}

fn sum(amounts: &[u32]) -> u64 {
    amounts.iter().map(|&amount| u64::from(amount)).sum()
}

/// Totals, and a whole-number ratio in every cell, stay under every limiter; the ledger stays.
#[test]
fn totals_and_whole_number_ratios_stay() {
    let mut random = Random::new(74);
    let (mut accepted, mut ratios_kept) = (0, [0; 4]);
    for _ in 0..40_000 {
        let mut world = random_limited_world(&mut random);
        let total_air = sum(&world.air);
        let (z, t) = (
            random.amount(0, 3),
            random.next() as usize % world.grid.n as usize,
        );
        let cells = cells(&world.grid);
        let even = u64::from(z) * total_air <= MOST_TRACER && random.one_in(2);
        if even {
            let amounts: Vec<u32> = world.air.iter().map(|m| z * m).collect();
            world.tracers[t * cells..(t + 1) * cells].copy_from_slice(&amounts);
            balance(&mut world);
        }
        let before = world.clone();
        for _ in 0..4 {
            let asked = random_moving_call(&mut random, &world);
            let answer = checked_call(&mut world, &asked);
            accepted += u32::from(answer.number == 0);
            assert_eq!(sum(&world.air), total_air);
            for t in 0..world.grid.n as usize {
                assert_eq!(sum(tracer(&world, t)), sum(tracer(&before, t)), "{asked:?}");
            }
            assert_eq!(world.ledger, before.ledger);
            if even {
                let pairs = tracer(&world, t).iter().zip(&world.air);
                assert!(pairs.into_iter().all(|(&t, m)| t == z * m), "{asked:?}");
                ratios_kept[limits_of(&world, t).limiter as usize] += 1;
            }
        }
    }
    assert!(accepted > 60_000, "{accepted}");
    assert!(
        ratios_kept[1..].iter().all(|&met| met > 5_000),
        "{ratios_kept:?}"
    );
}

/// "one tracer not altering another": the same tracer with its limiter in a world of its own, and
/// in one with other gases and limiters.
#[test]
fn a_tracer_does_not_depend_on_the_others() {
    let mut random = Random::new(75);
    for _ in 0..20_000 {
        let mut world = random_limited_world(&mut random);
        let kept = random.next() as usize % world.grid.n as usize;
        let mut alone = world.clone();
        alone.grid.n = 1;
        alone.tracers = tracer(&world, kept).to_vec();
        alone.ledger = world.ledger[BLOCK * kept..BLOCK * (kept + 1)].to_vec();
        for _ in 0..4 {
            let asked = random_moving_call(&mut random, &world);
            let answer = call(&mut world, &asked);
            assert_eq!(call(&mut alone, &asked), answer);
            assert_eq!(world.air, alone.air);
            assert_eq!(tracer(&world, kept), alone.tracers);
        }
    }
}

/// Two worlds that differ only in limiters get the same answer, count and new air.
#[test]
fn air_answers_and_counts_do_not_depend_on_limiters() {
    let mut random = Random::new(76);
    let mut differ = 0;
    for _ in 0..20_000 {
        let mut world = random_limited_world(&mut random);
        let mut twin = world.clone();
        put_random_limits(&mut random, &mut twin);
        for _ in 0..4 {
            let asked = random_moving_call(&mut random, &world);
            let answer = call(&mut world, &asked);
            assert_eq!(call(&mut twin, &asked), answer, "{asked:?}");
            assert_eq!(world.air, twin.air);
        }
        differ += u32::from(world.tracers != twin.tracers);
    }
    assert!(differ > 3_000, "{differ}");
}

/// The cells that an accepted call writes, where it has one substep.
fn written(before: &World, after: &World, asked: &Call, answer: Answer) -> Vec<Written> {
    match asked {
        Call::Zonal { layer, row, .. } | Call::ZonalWithCount { layer, row, .. }
            if answer.count == 1 =>
        {
            range::of_zonal_substep(before, after, *layer, *row)
        }
        Call::LongZonal { layer, row, fluxes } => {
            range::of_long_zonal(before, after, *layer, *row, fluxes)
        }
        Call::Meridional { layer, .. } => range::of_meridional(before, after, *layer),
        Call::Remap { .. } => range::of_remap(before, after).0,
        _ => Vec::new(),
    }
}

/// The range for tracers with the first limiter, whatever the others have, and the promise of the
/// fixed one, after one call on a random world.
#[test]
fn claims_on_random_worlds() {
    let mut random = Random::new(77);
    let (mut first, mut promised) = (0, 0);
    for _ in 0..60_000 {
        let before = random_limited_world(&mut random);
        let asked = random_moving_call(&mut random, &before);
        let mut after = before.clone();
        let answer = checked_call(&mut after, &asked);
        if answer.number != 0 {
            continue;
        }
        for written in written(&before, &after, &asked, answer) {
            written.expect_claims();
            first += u32::from(written.limits.limiter == 1);
            promised += u32::from(written.has_promise());
        }
    }
    println!("{first} cells with the first limiter, {promised} with a promise of the third");
    assert!(first > 100_000 && promised > 50_000);
}

/// A world of one tracer with the fixed limiter and a call on it, to be changed step by step.
#[derive(Clone)]
struct Attempt {
    world: World,
    asked: Call,
}

/// The kinds of calls of which the fixed limiter promises something.
const KINDS: [&str; 6] = [
    "zonal",
    "meridional",
    "cap of 4",
    "cap of 72",
    "long",
    "remap",
];

/// A random world of few cells, with a call of this kind.
fn random_attempt(random: &mut Random, kind: usize) -> Attempt {
    let grid = match kind {
        1 if random.one_in(4) => grid(4, 2, 1, 1),
        3 => grid(72, 1, 1, 1),
        5 => grid(4, 1, random.amount(2, 5), 1),
        _ => grid(4, 1, 1, 1),
    };
    let air = match random.next() % 4 {
        0 => random_thick_air(random, cells(&grid)),
        1 => (0..cells(&grid)).map(|_| random.amount(1, 50)).collect(),
        _ => random_air(random, cells(&grid)),
    };
    let tracer = match random.next() % 8 {
        0..=4 => random_even_tracer(random, &air),
        5 => random_thin_tracer(random, &air),
        6 => (0..air.len()).map(|_| random.amount(0, 50)).collect(),
        _ => random_tracer(random, &air),
    };
    let mut world = world_of(grid, air, tracer);
    if random.one_in(2) {
        let alike = (random.amount(2, 60_000), random.amount(0, 9_000));
        world.air.fill(alike.0);
        world.tracers.fill(alike.1);
        balance(&mut world);
    }
    let wanted = |asked: &Call| match kind {
        0 => matches!(asked, Call::Zonal { .. }),
        4 => matches!(asked, Call::LongZonal { .. }),
        5 => matches!(asked, Call::Remap { .. }),
        _ => matches!(asked, Call::Meridional { .. }),
    };
    loop {
        let asked = random_call(random, &world);
        if wanted(&asked) {
            return Attempt { world, asked };
        }
    }
}

/// A number changed by a little or by much, within its limits.
fn changed(random: &mut Random, number: i64, least: i64, most: i64) -> i64 {
    let by = match random.next() % 4 {
        0 => 1,
        1 => 9,
        2 => 300,
        _ => 10_000,
    };
    (number + random.between(-by, by)).clamp(least, most)
}

/// One place of the air, of the tracer or of the call's numbers changed.
fn change_one(random: &mut Random, attempt: &mut Attempt) {
    let Attempt { world, asked } = attempt;
    let place = random.next() as usize % world.air.len();
    match (random.next() % 3, asked) {
        (0, _) => world.air[place] = changed(random, world.air[place].into(), 1, 65_535) as u32,
        (1, _) => {
            let most = (MOST_TRACER / world.air.len() as u64) as i64;
            world.tracers[place] = changed(random, world.tracers[place].into(), 0, most) as u32;
        }
        (
            _,
            Call::Zonal { fluxes, .. }
            | Call::LongZonal { fluxes, .. }
            | Call::Meridional { fluxes, .. },
        ) => {
            let place = random.next() as usize % fluxes.len();
            fluxes[place] = changed(random, fluxes[place].into(), -262_140, 262_140) as i32;
        }
        (_, Call::Remap { table }) => {
            let place = 2 + random.next() as usize % (table.len() - 4).max(1);
            table[place] = changed(random, table[place].into(), 0, 65_536) as u32;
        }
        (_, asked) => unreachable!("{asked:?}"),
    }
}

/// One cell's amounts put in all cells, or one of the first W fluxes in the place of all of them.
fn spread(random: &mut Random, attempt: &mut Attempt) {
    let Attempt { world, asked } = attempt;
    let place = random.next() as usize % world.air.len();
    match asked {
        Call::Zonal { fluxes, .. }
        | Call::LongZonal { fluxes, .. }
        | Call::Meridional { fluxes, .. }
            if random.one_in(2) =>
        {
            let w = world.grid.w as usize;
            let flux = changed(random, fluxes[place % w].into(), -65_535, 65_535) as i32;
            fluxes[..w].fill(flux);
        }
        _ => {
            let (air, tracer) = (world.air[place], world.tracers[place]);
            world.air.fill(air);
            let most = (MOST_TRACER / world.air.len() as u64) as u32;
            world.tracers.fill(tracer.min(most));
        }
    }
}

/// The attempt changed, with bounds at the least and the greatest ratio, or a little outside of
/// them.
fn change(random: &mut Random, attempt: &mut Attempt) {
    if random.one_in(8) {
        spread(random, attempt);
    }
    for _ in 0..random.amount(1, 2) {
        change_one(random, attempt);
    }
    balance(&mut attempt.world);
    put_tight_bounds(random, &mut attempt.world);
}

fn put_tight_bounds(random: &mut Random, world: &mut World) {
    let ratios = ratios(world, 0);
    let outside = |random: &mut Random| match random.next() % 4 {
        0 => random.next() % 3,
        1 => random.next() % 300,
        _ => 0,
    };
    let (below, above) = (outside(random), outside(random));
    let lo = ratios.iter().min().unwrap().saturating_sub(below);
    let hi = ratios.iter().max().unwrap() + above;
    put_limits(world, 0, limits(3, lo, hi));
}

/// How near to the ends of the promise a call comes: the most that a cell has below lo·M', and above
/// (hi + 1)·M', in units for each of its faces. The promise is that both are less than 1.
fn nearness(attempt: &Attempt, kind: usize) -> Option<[f64; 2]> {
    let mut after = attempt.world.clone();
    let answer = call(&mut after, &attempt.asked);
    if answer.number != 0 {
        return None;
    }
    let mut most = [f64::MIN; 2];
    for written in written(&attempt.world, &after, &attempt.asked, answer) {
        written.expect_promise();
        let counts = match kind {
            1 => written.faces == 2,
            2 | 3 => written.faces > 2,
            _ => true,
        };
        if written.has_promise() && counts {
            let unit = written.faces as f64 * SCALE as f64;
            let (below, above) = written.beyond_bounds();
            most[0] = most[0].max(below as f64 / unit);
            most[1] = most[1].max(above as f64 / unit);
        }
    }
    Some(most)
}

/// How many were tried for a kind of call, and the nearest.
#[derive(Debug, Default)]
struct Tried {
    accepted: u64,
    nearest: [f64; 2],
}

/// Climbs from random attempts toward the lower end and toward the upper end of the promise.
fn climb(random: &mut Random, kind: usize, starts: u32, steps: u32) -> Tried {
    let mut tried = Tried::default();
    for start in 0..starts {
        let end = (start % 2) as usize;
        let mut attempt = random_attempt(random, kind);
        put_tight_bounds(random, &mut attempt.world);
        let mut best = f64::MIN;
        for _ in 0..steps {
            let mut next = attempt.clone();
            change(random, &mut next);
            let Some(near) = nearness(&next, kind) else {
                continue;
            };
            tried.accepted += 1;
            for (nearest, near) in tried.nearest.iter_mut().zip(near) {
                *nearest = nearest.max(near);
            }
            if near[end] >= best {
                best = near[end];
                attempt = next;
            }
        }
    }
    tried
}

/// What the fixed limiter promises where every ratio of the old neighbourhood is from lo to hi:
/// with f the cell's faces (1 in a remap and in a long sweep), lo·M' < 262,144·(T' + f) and
/// 262,144·T' < (hi + 1)·M' + 262,144·f.
fn expect_promise_holds(seed: u64, starts: u32, steps: u32) {
    let mut random = Random::new(seed);
    for (kind, name) in KINDS.iter().enumerate() {
        let starts = if *name == "cap of 72" {
            starts / 8
        } else {
            starts
        };
        let tried = climb(&mut random, kind, starts, steps);
        println!("{name}: {tried:?}");
        assert!(
            tried.accepted > u64::from(starts * steps) / 10,
            "{name}: {tried:?}"
        );
        assert!(
            tried.nearest.iter().all(|&near| 0.8 < near && near < 1.0),
            "{name}: {tried:?}"
        );
    }
}

#[test]
fn the_promise_of_the_fixed_limiter() {
    expect_promise_holds(78, 40, 1_500);
}

/// The same at length.
#[test]
#[ignore]
fn the_promise_of_the_fixed_limiter_at_length() {
    expect_promise_holds(79, 3_000, 5_000);
}
