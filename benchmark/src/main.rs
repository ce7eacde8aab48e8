//! The proved library beside plain C and plain Rust of the same calls, on the same inputs.
//! benchmark [--quick] [--times] [--only CALL]: tables on standard output, progress on standard error.

mod beside;
#[path = "../../compare/src/books.rs"]
#[allow(dead_code)]
mod books;
mod day;
#[path = "../../compare/src/gases.rs"]
mod gases;
mod growth;
mod inputs;
#[path = "../../compare/src/ledgers.rs"]
mod ledgers;
#[path = "../../compare/src/limiters.rs"]
#[allow(dead_code)]
mod limiters;
mod plain;
mod timing;
mod versions;
mod works;
#[path = "../../compare/src/worlds.rs"]
#[allow(dead_code)]
mod worlds;

use beside::{LONG, PRESSES};
use day::Measure;
use reference::Grid;
use timing::{agree, ratio_to, rounds, spread, Rounds, Work};
use versions::{COUNT, VERSIONS};
use worlds::Random;

/// How much is run.
struct Amount {
    lists: u64,
    rounds: usize,
    days: usize,
    times: bool,
    /// The one call that is timed, where it is named.
    only: Option<&'static str>,
}

fn amount(arguments: &[String]) -> Amount {
    let (mut quick, mut times, mut only) = (false, false, None);
    let mut rest = arguments.iter().map(String::as_str);
    while let Some(argument) = rest.next() {
        match argument {
            "--quick" => quick = true,
            "--times" => times = true,
            "--only" => only = Some(call_named(rest.next())),
            other => panic!("{other} is not one of --quick, --times, --only CALL"),
        }
    }
    let (lists, rounds, days) = if quick {
        (1_000, 16, 4)
    } else {
        (2_000, 64, 16)
    };
    Amount {
        lists,
        rounds,
        days,
        times,
        only,
    }
}

fn call_named(name: Option<&str>) -> &'static str {
    let names = works::KINDS.map(|kind| kind.name);
    let found = names.iter().find(|known| Some(**known) == name);
    found.unwrap_or_else(|| panic!("--only takes one of {names:?}"))
}

/// Compares the versions on seeded lists of calls, limits and refusals among them.
fn agreement(lists: u64) {
    eprintln!("{lists} lists of calls, compared after every call");
    let mut reached = [0u64; 23];
    for seed in 0..lists {
        let mut random = Random::new(seed);
        let grid = worlds::grid(&mut random, (seed % 40 / 13) as u32);
        let mut start = worlds::world_with_ledger(&mut random, grid);
        for _ in 0..12 {
            let call = worlds::next_call(&mut random, &mut start);
            let work = Work {
                start,
                calls: vec![call],
            };
            agree(&work);
            start = work.start;
            let answer = VERSIONS[0].call(0)(&mut start, &work.calls[0]);
            reached[answer.number as usize] += 1;
        }
    }
    println!(
        "All versions agree on {} calls of {lists} seeded lists (answer, count, every number).",
        12 * lists
    );
    for version in &VERSIONS[1..] {
        if !version.has_librarys_scale() {
            println!(
                "{} has another scale, by case x1; its amounts of gas are not compared.",
                version.name
            );
        }
        if !version.has_limiters() {
            println!(
                "{} has no limiters; it is compared where all are the first one, with bounds 0.",
                version.name
            );
        }
        if !version.has_books() {
            println!(
                "{} has no books; it is compared where they balance and are far from full, without them.",
                version.name
            );
        }
    }
    println!("Calls by answer 0 to 22, where 13 to 15 are the runner program's: {reached:?}");
    let of_calls = |answer: usize| !(13..=15).contains(&answer);
    assert!(
        (0..reached.len()).all(|answer| (reached[answer] > 0) == of_calls(answer)),
        "an answer was not reached"
    );
}

/// The table's header: a first column, and a column for each other version.
fn header(first: &str, times: bool) {
    let names: Vec<&str> = VERSIONS[1..].iter().map(|version| version.name).collect();
    let more = if times { " library, µs |" } else { "" };
    println!("| {first} | {} |{more}", names.join(" | "));
    println!(
        "|{}{}",
        "---|".repeat(COUNT),
        if times { "---|" } else { "" }
    );
}

/// A line of a table: the ratios, and the library's seconds where they are asked for.
fn row(name: &str, ratios: &[String], seconds: f64, times: bool) {
    let more = if times {
        format!(" {:.3} |", seconds * 1e6)
    } else {
        String::new()
    };
    println!("| {name} | {} |{more}", ratios.join(" | "));
}

fn ratios(name: &str, rounds: &Rounds, calls: usize, times: bool) {
    let all: Vec<String> = (1..COUNT)
        .map(|v| ratio_to(rounds, v).to_string())
        .collect();
    let median = spread(rounds.iter().map(|seconds| seconds[0]).collect()).median;
    row(name, &all, median / calls as f64, times);
}

fn each_call(title: &str, grid: Grid, numbers: usize, amount: &Amount) {
    println!("\n## {title}\n\nThe library's time as a part of the other version's.\n");
    header("Call", amount.times);
    let asked = |kind: &&works::Kind| amount.only.is_none_or(|name| name == kind.name);
    for kind in works::KINDS.iter().filter(asked) {
        let mut work = works::work(3, grid, kind.calls, numbers);
        inputs::let_stand(&mut work.start, kind.standing);
        timed(title, kind.name, &work, amount);
        if kind.moves() && grid == works::FULL {
            for limiter in [2, 3] {
                work.start = inputs::limited(&work.start, limiter);
                let name = format!("{}, limiter {limiter}", kind.name);
                timed(title, &name, &work, amount);
            }
        }
    }
}

fn timed(title: &str, name: &str, work: &Work, amount: &Amount) {
    eprintln!("{title}: {name}");
    let rounds = rounds(work, amount.rounds);
    ratios(name, &rounds, work.calls.len(), amount.times);
}

fn a_day(amount: &Amount) {
    let day = day::run(1, amount.days, |number| {
        eprintln!("day {number} of {}", amount.days)
    });
    println!("\n## A day: {} calls on the full grid\n", day.calls);
    let reached = day
        .substeps
        .iter()
        .enumerate()
        .filter(|(_, rows)| **rows > 0);
    let counts: Vec<String> = reached
        .map(|(n, rows)| format!("{rows} with {n}"))
        .collect();
    println!("Rows by their substep count: {}.\n", counts.join(", "));
    header("Part", amount.times);
    let lines = [
        ("the day", Measure::Whole),
        ("its tests (as many loads)", Measure::Tests),
        ("the rest", Measure::Rest),
    ];
    for (name, measure) in lines {
        let all: Vec<String> = (1..COUNT)
            .map(|v| day.ratio(measure, v).to_string())
            .collect();
        row(name, &all, day.median(measure, 0), amount.times);
    }
    println!("\nShare of the whole-world tests in the day:");
    for (v, version) in VERSIONS.iter().enumerate() {
        println!("- {}: {:.2}", version.name, day.share(v));
    }
}

/// The day under the other limiters, in fewer rounds.
fn a_day_under_other_limiters(amount: &Amount) {
    println!("\n## The day under the other limiters\n");
    header("Part", amount.times);
    for limiter in [2, 3] {
        let days = amount.days.div_ceil(2);
        let day = day::run(limiter, days, |number| {
            eprintln!("limiter {limiter}, day {number} of {days}")
        });
        let of = |v| day.ratio(Measure::Whole, v).to_string();
        let all: Vec<String> = (1..COUNT).map(of).collect();
        let name = format!("the day, limiter {limiter}");
        row(&name, &all, day.median(Measure::Whole, 0), amount.times);
    }
}

fn long_beside_zonal(amount: &Amount) {
    println!("\n## The long sweep beside the zonal sweep\n");
    println!("The time of long sweeps as a part of that of zonal sweeps by the same fluxes, each version by itself.");
    let names: Vec<&str> = VERSIONS.iter().map(|version| version.name).collect();
    let row = Grid {
        r: 1,
        k: 1,
        ..works::FULL
    };
    for grid in [row, works::FULL] {
        let Grid { w, r, k, n } = grid;
        println!(
            "\n| Substeps on {w} × {r} × {k} × {n} | {} |",
            names.join(" | ")
        );
        println!("|{}", "---|".repeat(COUNT + 1));
        for substeps in [1, 2, 4, 8, 16] {
            eprintln!("long sweeps beside zonal sweeps of {substeps} substeps, {grid:?}");
            let ratio = |v| beside::beside_zonal(&LONG, grid, substeps, v, amount.rounds);
            let ratios: Vec<String> = (0..COUNT).map(|v| ratio(v).to_string()).collect();
            println!("| {substeps} | {} |", ratios.join(" | "));
        }
    }
}

fn presses_beside_zonal(amount: &Amount) {
    println!("\n## The two presses beside the zonal sweep\n");
    println!("The library's time for count_zonal and then zonal_with_count as a part of that for zonal by the same fluxes.\n");
    println!("| Substeps | on 8 × 3 × 2 × 2 | on 72 × 44 × 32 × 8 |\n|---|---|---|");
    for substeps in [1, 4, 16] {
        eprintln!("the two presses beside zonal sweeps of {substeps} substeps");
        let ratio = |grid| beside::beside_zonal(&PRESSES, grid, substeps, 0, amount.rounds);
        let [small, full] = [works::SMALL, works::FULL].map(ratio);
        println!("| {substeps} | {small} | {full} |");
    }
}

fn share_of_tests(amount: &Amount) {
    println!("\n## The whole-world tests\n");
    println!("Their share in a call on the full grid (as many loads as a part of the calls):\n");
    println!("| Call | library | {} |\n|---|---|---|", VERSIONS[1].name);
    for kind in works::KINDS.iter().filter(|kind| kind.moves()) {
        eprintln!("share of the tests in {}", kind.name);
        let shares = [0, 1].map(|v| growth::share(kind, v, amount.rounds));
        println!("| {} | {} | {} |", kind.name, shares[0], shares[1]);
    }
}

fn bandwidth_of_tests(amount: &Amount) {
    println!("\nTheir bandwidth as a part of a plain read's (a sum in 32 bits by gcc -O3 -march=native):\n");
    let names: Vec<&str> = VERSIONS.iter().map(|version| version.name).collect();
    println!("| Grid | {} |\n|---|---|---|---|---|", names.join(" | "));
    let (part, quarter) = (
        Grid {
            r: 11,
            k: 4,
            ..works::FULL
        },
        Grid {
            k: 8,
            ..works::FULL
        },
    );
    for grid in [part, quarter, works::FULL] {
        eprintln!("bandwidth of the tests, {grid:?}");
        let share = |v| growth::bandwidth(grid, v, amount.rounds).to_string();
        let shares: Vec<String> = (0..COUNT).map(share).collect();
        let Grid { w, r, k, n } = grid;
        println!("| {w} × {r} × {k} × {n} | {} |", shares.join(" | "));
    }
}

fn linear(amount: &Amount) {
    println!("\n## Time for each cell and tracer as the grid grows\n");
    println!("The library's time for each cell and tracer (of a load, for each number that it reads), as a part of that at the first size.");
    println!("Load and remap in 72 × 44 × 32 × 8, meridional in 72 × 44 × 1 × 8, zonal and long_zonal in 72 × 1 × 1 × 8, but for the size that grows.\n");
    let names: Vec<&str> = growth::GROWN.iter().map(|kind| kind.name).collect();
    println!(
        "| Size | {} |\n|{}",
        names.join(" | "),
        "---|".repeat(names.len() + 1)
    );
    for (name, sizes) in growth::SIZES {
        eprintln!("growth of {name}");
        let of_kind = |kind: &growth::Grown| {
            let grows = kind.grows_with.contains(name);
            grows.then(|| growth::grow(kind, name, sizes, amount.rounds.min(41)))
        };
        let columns: Vec<_> = growth::GROWN.iter().map(of_kind).collect();
        for (i, size) in sizes.iter().enumerate() {
            let text = |column: &Option<[timing::Spread; 4]>| {
                column.map_or("–".into(), |all| all[i].to_string())
            };
            let row: Vec<String> = columns.iter().map(text).collect();
            println!("| {name} = {size} | {} |", row.join(" | "));
        }
    }
}

fn main() {
    let arguments: Vec<String> = std::env::args().skip(1).collect();
    let amount = amount(&arguments);
    println!("# Ratios, each the median of its rounds and in brackets the 10th and the 90th of a hundred\n");
    agreement(amount.lists);
    each_call("Each call on 8 × 3 × 2 × 2", works::SMALL, 100_000, &amount);
    each_call(
        "Each call on 72 × 44 × 32 × 8",
        works::FULL,
        5_000_000,
        &amount,
    );
    if amount.only.is_some() {
        return;
    }
    a_day(&amount);
    a_day_under_other_limiters(&amount);
    long_beside_zonal(&amount);
    presses_beside_zonal(&amount);
    share_of_tests(&amount);
    bandwidth_of_tests(&amount);
    linear(&amount);
}
