//! Document 02's thin gases: the stored cases beside their numbers at the scale before, the ends
//! of the new range, the largest numbers, and random rows, columns and caps.

mod common;
use common::range::{self, Written};
use common::*;
use reference::scheme::{self, piece_from_high_end, piece_from_low_end, ratio, SCALE};
use reference::{call, script, Answer, Call, Limiter, World};

const CASES: &str = include_str!("../cases/thin.txt");

/// "document 01 has 65,536 as the scale"
const SCALE_BEFORE: i64 = 65_536;

/// The inputs of the cases y6-1, y6-2, .. of the model's table, and what this implementation
/// answers.
#[test]
fn cases_of_thin_gases_answer_as_stored() {
    let outcome = script::run(CASES);
    assert_eq!(outcome.error, None);
    assert_eq!(outcome.lines, include_str!("../cases/thin.out"));
}

/// The lines of the case with this label, without its comment.
fn lines_of(label: &str) -> Vec<&'static str> {
    let comment = format!("# {label} ");
    let lines = CASES.lines().skip_while(|line| !line.starts_with(&comment));
    let lines: Vec<&str> = lines.skip(1).take_while(|line| !line.is_empty()).collect();
    assert!(lines.len() > 3, "{label}");
    lines
}

fn numbers<T: std::str::FromStr>(words: &str) -> Vec<T> {
    let number = |word: &str| word.parse().ok().expect("a number");
    words.split_whitespace().map(number).collect()
}

/// The world of the case with this label, and its first call.
fn world_and_call(label: &str) -> (World, Call) {
    let lines = lines_of(label);
    let words = |name: &str| {
        let line = lines.iter().find_map(|line| line.strip_prefix(name));
        line.expect("such a line")
    };
    let sizes: Vec<u32> = numbers(words("grid "));
    let grid = grid(sizes[0], sizes[1], sizes[2], sizes[3]);
    let world = world_of(grid, numbers(words("air ")), numbers(words("tracers ")));
    let (name, words) = lines[3].split_once(' ').expect("a call");
    let signed: Vec<i32> = numbers(words);
    let asked = match name {
        "zonal" => zonal(signed[0] as u32, signed[1] as u32, &signed[2..]),
        "long_zonal" => long_zonal(signed[0] as u32, signed[1] as u32, &signed[2..]),
        "meridional" => meridional(signed[0] as u32, &signed[1..]),
        "remap" => remap(&numbers::<u32>(words)),
        _ => panic!("{name}"),
    };
    (world, asked)
}

/// The tracers that the cases left before, at the scale 65,536. Answers and air are the same.
const BEFORE: [(&str, &str); 15] = [
    ("y6-1", "0 50 34 43 36 0"),
    ("y6-2", "41 35 28 34 24 20"),
    ("y6-3", "66 30 35 48 9 34 38 48 25 34"),
    (
        "y6-4",
        "18 21 14 20 17 19 23 25 20 26 21 29 13 17 12 16 13 18",
    ),
    (
        "y6-5",
        "33 24 28 27 31 29 16 12 12 13 15 15 13 9 11 12 12 12 29 21 25 25 27 28",
    ),
    ("y6-6", "0 60 44 56 20 0"),
    ("y6-7", "0 44 50 48 49 0"),
    ("y6-8", "0 29 55 18 29 0"),
    ("y6-9", "0 15 66 45 19 0"),
    (
        "y6-10",
        "0 50 37 10 46 0 0 25824166 10181977 3047733 46946124 0",
    ),
    ("y6-14", "0 194189655 4309 74241491 0 0"),
    ("y6-24", "0 51 85 51 1 0"),
    (
        "y6-26",
        "71 71 71 71 71 71 45 45 45 45 45 45 10 10 10 10 10 10",
    ),
    ("y6-28", "0 71 45 10 2 0"),
    ("y6-29", "79 60 60 60 60 1"),
];

#[test]
fn the_numbers_differ_from_those_before() {
    for (label, before) in BEFORE {
        let (mut world, asked) = world_and_call(label);
        let total: u32 = world.tracers.iter().sum();
        assert_eq!(call(&mut world, &asked).number, 0);
        let before: Vec<u32> = numbers(before);
        assert_eq!(before.len(), world.tracers.len(), "{label}");
        assert_ne!(before, world.tracers, "{label}");
        assert_eq!(before.iter().sum::<u32>(), total, "{label}");
    }
}

/// The mismatch under the first limiter, which every tracer here has.
fn mismatch(qa: i64, q: i64, qb: i64) -> i64 {
    scheme::mismatch(&Limiter::Present, qa, q, qb)
}

fn ratio_at(scale: i64, air: i64, tracer: i64) -> i64 {
    scale * tracer / air
}

/// A row of one tracer after one substep at this scale, with its own arithmetic.
fn row_after(scale: i64, air: &[u32], tracer: &[u32], fluxes: &[i32]) -> Vec<u32> {
    let columns = air.len();
    let (air, tracer) = (signed(air), signed(tracer));
    let q = |i: usize| ratio_at(scale, air[i % columns], tracer[i % columns]);
    let mut after = tracer.clone();
    for (i, &flux) in fluxes.iter().enumerate() {
        let east = (i + 1) % columns;
        let (giver, taker) = if flux > 0 { (i, east) } else { (east, i) };
        let d = mismatch(q(giver + columns - 1), q(giver), q(giver + 1)) * i64::from(flux.signum());
        let wide = [
            2 * scale,
            i64::from(flux.abs()),
            d,
            air[giver],
            tracer[giver],
        ];
        let [twice, m, d, air, tracer] = wide.map(i128::from);
        let piece = (twice * m * tracer + d * m * (air - m)).div_euclid(twice * air) as i64;
        after[giver] -= piece;
        after[taker] += piece;
    }
    after.iter().map(|&amount| amount as u32).collect()
}

/// The numbers before and now of the cases with one zonal substep.
#[test]
fn rows_at_both_scales() {
    for label in ["y6-1", "y6-8", "y6-10", "y6-14", "y6-24"] {
        let (mut world, asked) = world_and_call(label);
        let Call::Zonal { fluxes, .. } = &asked else {
            panic!("{label}");
        };
        let at = |scale: i64, world: &World| -> Vec<u32> {
            let row = |tracer: &[u32]| row_after(scale, &world.air[1..5], &tracer[1..5], fluxes);
            let tracers = world.tracers.chunks(6);
            tracers
                .flat_map(|tracer| [vec![0], row(tracer), vec![0]].concat())
                .collect()
        };
        let (before, now) = (at(SCALE_BEFORE, &world), at(SCALE, &world));
        assert_eq!(call(&mut world, &asked), accepted(1));
        assert_eq!(now, world.tracers, "{label}");
        let hard_coded = BEFORE.iter().find(|case| case.0 == label).unwrap().1;
        assert_eq!(before, numbers::<u32>(hard_coded), "{label}");
    }
}

/// The cells whose neighbours on both sides count in a call, each with them, low side first.
fn threes(world: &World, asked: &Call) -> Vec<[usize; 3]> {
    let layer = layer_cells(&world.grid);
    let columns = world.grid.w as usize;
    match asked {
        Call::Zonal { .. } | Call::LongZonal { .. } => (0..columns)
            .map(|i| [i + columns - 1, i, i + 1].map(|i| 1 + i % columns))
            .collect(),
        Call::Meridional { .. } => (1..layer - 1)
            .map(|c| [c.saturating_sub(columns), c, (c + columns).min(layer - 1)])
            .collect(),
        Call::Remap { .. } => (layer..world.air.len() - layer)
            .filter(|c| (1..layer - 1).contains(&(c % layer)))
            .map(|c| [c - layer, c, c + layer])
            .collect(),
        _ => panic!("{asked:?}"),
    }
}

/// The mismatches of tracer 0 that count in a call, at this scale.
fn mismatches(scale: i64, world: &World, asked: &Call) -> Vec<i64> {
    let q = |c: usize| ratio_at(scale, world.air[c].into(), world.tracers[c].into());
    let of_three = |[low, c, high]: [usize; 3]| mismatch(q(low), q(c), q(high));
    threes(world, asked).into_iter().map(of_three).collect()
}

/// "a ratio in steps of 1/65,536 leaves hardly any slope"
#[test]
fn every_mismatch_was_0_before() {
    for number in 1..=10 {
        let (world, asked) = world_and_call(&format!("y6-{number}"));
        let before = mismatches(SCALE_BEFORE, &world, &asked);
        assert!(before.iter().all(|&d| d == 0), "y6-{number} {before:?}");
        let now = mismatches(SCALE, &world, &asked);
        assert!(now.iter().any(|&d| d != 0), "y6-{number} {now:?}");
    }
}

/// The cells that an accepted call writes. Sweeps here have one substep.
fn written(before: &World, after: &World, asked: &Call) -> Vec<Written> {
    match asked {
        Call::Zonal { layer, row, .. } => range::of_zonal_substep(before, after, *layer, *row),
        Call::LongZonal { layer, row, fluxes } => {
            range::of_long_zonal(before, after, *layer, *row, fluxes)
        }
        Call::Meridional { layer, .. } => range::of_meridional(before, after, *layer),
        Call::Remap { .. } => range::of_remap(before, after).0,
        _ => panic!("{asked:?}"),
    }
}

/// The call leaves this cell with this air and tracer, which is out of its range without the
/// quarter; it and all others are in it with the quarter.
fn expect_range_end(before: &World, asked: &Call, cell: usize, amounts: (u32, u32)) {
    let mut after = before.clone();
    let answer = call(&mut after, asked);
    let counts = match asked {
        Call::Zonal { .. } | Call::Meridional { .. } => answer == accepted(1),
        _ => answer.number == 0,
    };
    assert!(counts, "{asked:?} {answer:?}");
    assert_eq!((after.air[cell], after.tracers[cell]), amounts);
    let mut met = false;
    for written in written(before, &after, asked) {
        written.expect_in_range();
        if written.cell == cell {
            met = true;
            assert!(!written.within_faces());
        }
    }
    assert!(met, "cell {cell} is not among those written");
}

#[test]
fn the_quarter_is_needed() {
    for (label, cell, amounts) in [
        ("y6-23", 2, (34_577, 34_578)),
        ("y6-24", 2, (60_796, 83)),
        ("y6-25", 12 + 2, (9, 10)),
        ("y6-26", 2, (50_756, 70)),
        ("y6-27", 3, (14, 15)),
        ("y6-28", 1, (50_756, 70)),
        ("y6-29", 0, (64_662, 75)),
    ] {
        let (world, asked) = world_and_call(label);
        expect_range_end(&world, &asked, cell, amounts);
    }
}

/// The caps have the mismatch 0 in a remap, and stay within one unit.
#[test]
fn a_cap_in_a_remap_stays_within_one_unit() {
    for label in ["y6-25", "y6-26"] {
        let (before, asked) = world_and_call(label);
        let mut after = before.clone();
        call(&mut after, &asked);
        for written in written(&before, &after, &asked) {
            let at_a_cap = [0, 5].contains(&(written.cell % 6));
            assert!(!at_a_cap || written.within_faces());
        }
    }
}

/// Further ends, of larger worlds or farther out.
#[test]
fn further_range_ends() {
    // 2.059 units above 20,790 in 23,827.
    let row = row_world([100, 64_977, 23_827, 100], [0, 56_695, 20_790, 0]);
    let sweep = zonal(0, 0, &[-32_692, 102, 0, 0]);
    expect_range_end(&row, &sweep, 2, (32_183, 28_083));
    // 2.001 units above 1 in 713.
    let row = row_world([100, 40_717, 713, 100], [0, 57, 1, 0]);
    let sweep = zonal(0, 0, &[-37_154, 712, 0, 0]);
    expect_range_end(&row, &sweep, 2, (2_851, 6));
    // 2.123 units below 1,218 in 3,939.
    let row = row_world([65_498, 3_939, 65_498, 100], [20_253, 1_218, 20_253, 100]);
    let sweep = zonal(0, 0, &[30_694, -30_694, 0, 0]);
    expect_range_end(&row, &sweep, 2, (65_327, 20_198));
    // 1.061 units above 95 in 26,692.
    let row = row_world([1_000, 65_185, 26_692, 1_000], [0, 232, 95, 0]);
    let sweep = long_zonal(0, 0, &[-32_048, 0, 0, 0]);
    expect_range_end(&row, &sweep, 2, (33_137, 119));
    let mut columns = even_world(grid(4, 1, 3, 1), 1_000);
    for cell in 0..6 {
        (columns.air[6 + cell], columns.tracers[6 + cell]) = (65_185, 232);
        (columns.air[12 + cell], columns.tracers[12 + cell]) = (26_692, 95);
    }
    balance(&mut columns);
    let table = remap(&[0, 0, 33_048, 0, 66_185, 0, 0, 65_536]);
    expect_range_end(&columns, &table, 6 + 2, (33_137, 119));
}

/// The south cap of W columns: its air and tracer, those of each column, and the flux southward
/// from each. The north cap has a greater ratio.
fn cap_and_columns(w: u32, cap: (u32, u32), column: (u32, u32), m: i32) -> (World, Call) {
    let mut world = even_world(grid(w, 1, 1, 1), column.0);
    world.tracers.fill(column.1);
    let north = w as usize + 1;
    (world.air[0], world.tracers[0]) = cap;
    (world.air[north], world.tracers[north]) = (100, 100 * (column.1 / column.0 + 1));
    balance(&mut world);
    let fluxes = [vec![-m; w as usize], vec![0; w as usize]].concat();
    (world, meridional(0, &fluxes))
}

/// 4.178 of 4.25 units below the least ratio with four columns, 72.238 of 72.25 with 72.
#[test]
fn caps_at_the_lower_end_of_their_range() {
    let (world, asked) = cap_and_columns(4, (2_450, 3), (64_515, 79), 15_553);
    expect_range_end(&world, &asked, 0, (64_662, 75));
    let (world, asked) = cap_and_columns(72, (302, 603), (64_932, 129_649), 905);
    expect_range_end(&world, &asked, 0, (302 + 72 * 905, 603 + 72 * 1_806));
    // More than 72.2 units below, and less than 72.25.
    let (m2, t2) = (302 + 72 * 905, 603 + 72 * 1_806);
    assert!(603 * m2 * 20 > (t2 * 20 + 72 * 20 + 4) * 302);
    assert!(603 * m2 * 4 < (t2 * 4 + 72 * 4 + 1) * 302);
}

/// A piece's largest numbers, with the numerator just below 2^63.
#[test]
fn the_largest_pieces() {
    let most = MOST_TRACER as i64;
    assert_eq!(ratio(1, most), 70_368_743_915_520);
    assert_eq!(2 * SCALE * 65_535 * most, 9_223_231_265_007_206_400);
    for m in [0, 1, 32_767, 65_534, 65_535] {
        assert_eq!(piece_from_high_end(65_535, most, 0, m), most * m / 65_535);
    }
    // Half of a cell that is empty at its low end has 3/4 or 1/4 of its tracer.
    let (air, tracer) = (65_534, 65_534 * 4_000);
    let d = mismatch(0, ratio(air, tracer), ratio(1, 16_000));
    assert_eq!(d, 2 * ratio(air, tracer));
    let quarter = tracer / 4;
    assert_eq!(piece_from_high_end(air, tracer, d, air / 2), 3 * quarter);
    assert_eq!(piece_from_low_end(air, tracer, d, air / 2), quarter);
    assert_eq!(piece_from_low_end(air, tracer, -d, air / 2), 3 * quarter);
    assert_eq!(piece_from_high_end(air, tracer, d, air), tracer);
    assert_eq!(piece_from_high_end(air, tracer, d, air - 1), tracer - 1);
    assert_eq!(piece_from_low_end(air, tracer, d, 1), 0);
}

/// Grid W, 1, 1, 1 or 4, 1, K, 1 of a thin gas or of a nearly even one.
fn random_small_world(random: &mut Random, w: u32, k: u32) -> World {
    let grid = grid(w, 1, k, 1);
    let air = random_thick_air(random, cells(&grid));
    let tracer = if random.one_in(3) {
        random_thin_tracer(random, &air)
    } else {
        random_even_tracer(random, &air)
    };
    world_of(grid, air, tracer)
}

/// How many of the calls are accepted, and how many cells need the quarter.
#[derive(Debug, Default)]
struct Ranges {
    accepted: u32,
    quarters: u32,
}

impl Ranges {
    fn note(&mut self, before: &World, asked: &Call) {
        let mut after = before.clone();
        let Answer { number, count } = call(&mut after, asked);
        if number != 0 || (count > 1 && matches!(asked, Call::Zonal { .. })) {
            return;
        }
        self.accepted += 1;
        for written in written(before, &after, asked) {
            written.expect_in_range();
            self.quarters += u32::from(!written.within_faces());
        }
    }
}

#[test]
fn random_rows_stay_in_range() {
    let mut random = Random::new(63);
    let (mut rows, mut long) = (Ranges::default(), Ranges::default());
    for _ in 0..60_000 {
        let world = random_small_world(&mut random, 4, 1);
        let fluxes: Vec<i32> = (1..5)
            .map(|i| {
                let most = i64::from(world.air[i]) * 2 / 3;
                random.between(-most, most) as i32
            })
            .collect();
        rows.note(&world, &zonal(0, 0, &fluxes));
        let shift = random.between(-100_000, 100_000) as i32;
        let shifted: Vec<i32> = fluxes.iter().map(|flux| flux / 2 + shift).collect();
        long.note(&world, &long_zonal(0, 0, &shifted));
    }
    println!("{rows:?} {long:?}");
    assert!(rows.accepted > 10_000 && long.accepted > 10_000);
}

#[test]
fn random_columns_stay_in_range() {
    let mut random = Random::new(64);
    let mut columns = Ranges::default();
    for _ in 0..20_000 {
        let k = random.amount(3, 6);
        let world = random_small_world(&mut random, 4, k);
        let inner = (1..k).flat_map(|j| {
            let b = 65_536 * j / k;
            [random.amount(0, 9_000), b - random.amount(0, 8_000)]
        });
        let table: Vec<u32> = [0, 0].into_iter().chain(inner).chain([0, 65_536]).collect();
        columns.note(&world, &remap(&table));
    }
    println!("{columns:?}");
    assert!(columns.accepted > 5_000);
    assert!(columns.quarters > 0);
}

/// A cap of little air that all columns give to.
#[test]
fn random_caps_stay_in_range() {
    let mut random = Random::new(65);
    let mut caps = Ranges::default();
    for _ in 0..20_000 {
        let w = if random.one_in(3) {
            72
        } else {
            random.amount(4, 12)
        };
        let mut world = random_small_world(&mut random, w, 1);
        let least = random.amount(1, 3_000);
        let share = u64::from(world.tracers[0]) * u64::from(least) / u64::from(world.air[0]);
        world.tracers[0] = share as u32;
        balance(&mut world);
        world.air[0] = least;
        let most = (65_535 - least) / w;
        let fluxes: Vec<i32> = (0..2 * w)
            .map(|face| match face {
                _ if face < w => -(random.amount(most / 2, most) as i32),
                _ => random.between(-20, 20) as i32,
            })
            .collect();
        caps.note(&world, &meridional(0, &fluxes));
    }
    println!("{caps:?}");
    assert!(caps.accepted > 10_000);
}

/// Of the cells of thin rows some have a slope now and had none before, and none the other way
/// round.
#[test]
fn thin_rows_have_more_slopes() {
    let mut random = Random::new(66);
    let (mut gained, mut lost, mut cells) = (0, 0, 0);
    for _ in 0..10_000 {
        let air: Vec<u32> = (0..4).map(|_| random.amount(30_000, 65_535)).collect();
        let tracer: Vec<u32> = air.iter().map(|m| (m + 500) / 1_000).collect();
        let row = |list: &[u32]| -> [u32; 4] { list.try_into().unwrap() };
        let world = row_world(row(&air), row(&tracer));
        let sweep = zonal(0, 0, &[0; 4]);
        let before = mismatches(SCALE_BEFORE, &world, &sweep);
        let now = mismatches(SCALE, &world, &sweep);
        for (before, now) in before.into_iter().zip(now) {
            cells += 1;
            gained += u32::from(before == 0 && now != 0);
            lost += u32::from(before != 0 && now == 0);
        }
    }
    println!("{gained} gained, {lost} lost of {cells}");
    assert!(gained > 5_000 && lost == 0, "{gained} {lost} {cells}");
}
