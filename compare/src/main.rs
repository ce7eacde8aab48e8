//! Compares the proved library with the second implementation, call by call, on seeded worlds:
//! answer, count, all air, all tracers and the whole ledger after every call. A difference is made as small as it
//! can be made and printed, and the exit status is 1.
//!
//!     compare [LISTS]                     how many lists of calls to run (default 2,000)
//!     compare --script [LISTS]            prints lists in small worlds as a script, for another caller
//!     compare runner [INPUTS [PROGRAM]]   the runner program in place of the calls (default 20,000 inputs)
//!     compare long-run                    writes one long input of the runner
//!     compare long-loop [RECORDS]         writes an input of so many records (default 5,000,000)

mod booked;
mod books;
mod chosen;
mod emitters;
mod filled;
mod gases;
mod inputs;
mod ledgers;
#[rustfmt::skip]
mod library;
mod limiters;
mod long;
mod presses;
mod reached;
mod readout;
mod records;
mod runner;
mod situations;
mod thin;
mod worlds;

use reference::{Answer, Call, World};
use std::collections::BTreeMap;
use std::io::Write;
use std::process::ExitCode;

const CALLS: usize = 32;
/// From so many lists on, every answer must be reached.
const FULL: u64 = 2_000;

/// Makes the call in the library; its answer in the second implementation's form.
fn library_call(world: &mut World, call: &Call) -> Answer {
    match library::call(world, call) {
        Ok(count) => Answer { number: 0, count },
        Err(refusal) => Answer {
            number: refusal as u32,
            count: 0,
        },
    }
}

/// Makes the call in both; the second implementation's answer and world, and whether the library's differ.
fn both(world: &World, call: &Call) -> (Answer, World, bool) {
    let mut ours = world.clone();
    let mut theirs = world.clone();
    let got = library_call(&mut ours, call);
    let want = reference::call(&mut theirs, call);
    let differ = got != want || ours != theirs;
    (want, theirs, differ)
}

fn differ(world: &World, call: &Call) -> bool {
    both(world, call).2
}

/// Every number of the world: air, tracers, ledger.
fn numbers(world: &mut World) -> impl Iterator<Item = &mut u32> {
    let World {
        air,
        tracers,
        ledger,
        ..
    } = world;
    air.iter_mut().chain(tracers).chain(ledger)
}

/// Number i of the world.
fn number(world: &mut World, i: usize) -> &mut u32 {
    numbers(world).nth(i).expect("a number of the world")
}

/// The values to try in place of x: smaller ones.
fn smaller(x: u32) -> Vec<u32> {
    [0, 1, x / 2, x.saturating_sub(1)]
        .into_iter()
        .filter(|y| *y < x)
        .collect()
}

/// The fluxes of a sweep; none of another call.
fn fluxes_of(call: &mut Call) -> &mut [i32] {
    match call {
        Call::Zonal { fluxes, .. }
        | Call::CountZonal { fluxes, .. }
        | Call::ZonalWithCount { fluxes, .. }
        | Call::LongZonal { fluxes, .. }
        | Call::Meridional { fluxes, .. } => fluxes,
        _ => &mut [],
    }
}

/// Replaces numbers of the world and of the call by smaller ones as long as the two still differ, in so many rounds at most: a large
/// number that can only be made smaller by one would take as many as it has units.
fn shrink(mut world: World, mut call: Call) -> (World, Call) {
    for _ in 0..1_000 {
        let mut changed = false;
        for i in 0..numbers(&mut world).count() {
            for y in smaller(*number(&mut world, i)) {
                let mut trial = world.clone();
                *number(&mut trial, i) = y;
                if differ(&trial, &call) {
                    world = trial;
                    changed = true;
                    break;
                }
            }
        }
        for i in 0..fluxes_of(&mut call).len() {
            let mut trial = call.clone();
            let flux = &mut fluxes_of(&mut trial)[i];
            if *flux == 0 {
                continue;
            }
            *flux /= 2;
            if differ(&world, &trial) {
                call = trial;
                changed = true;
                break;
            }
        }
        if !changed {
            break;
        }
    }
    (world, call)
}

/// The world's lists, a line each.
fn lists(world: &World) -> String {
    format!(
        "  air {:?}\n  tracers {:?}\n  ledger {:?}",
        world.air, world.tracers, world.ledger
    )
}

fn report(world: &World, call: &Call) {
    let (world, call) = shrink(world.clone(), call.clone());
    println!(
        "DIFFERENT: {:?}\n  {:?}\n{}",
        call,
        world.grid,
        lists(&world)
    );
    let mut ours = world.clone();
    let answer = library_call(&mut ours, &call);
    println!("library: {answer:?}\n{}", lists(&ours));
    let mut theirs = world.clone();
    let answer = reference::call(&mut theirs, &call);
    println!("second implementation: {answer:?}\n{}", lists(&theirs));
}

/// Runs the lists in both and stops at a difference.
fn compare_calls(lists: u64) {
    let mut seen: BTreeMap<(&str, u32), u64> = BTreeMap::new();
    let mut long = long::Situations::default();
    let mut emitters = emitters::Situations::default();
    let mut readout = readout::Situations::default();
    let mut presses = presses::Situations::default();
    let mut thin = thin::Situations::default();
    let mut chosen = chosen::Situations::default();
    let mut booked = booked::Situations::default();
    for list in 0..lists {
        let size = if list * 10 < lists * 6 {
            0
        } else if list * 10 < lists * 9 {
            1
        } else if list * 100 < lists * 99 {
            2
        } else {
            3
        };
        let mut random = worlds::Random::new(list + 1);
        let grid = worlds::grid(&mut random, size);
        let mut world = worlds::world_with_ledger(&mut random, grid);
        booked.begin();
        for _ in 0..CALLS {
            let call = worlds::next_call(&mut random, &mut world);
            let (want, after, differ) = both(&world, &call);
            if differ {
                report(&world, &call);
                std::process::exit(1);
            }
            if want.number != 0 && !library::refusals(&call).contains(&want.number) {
                println!(
                    "bindings/calls.txt does not name {} for {call:?}",
                    want.number
                );
                std::process::exit(1);
            }
            long.add(&world, &call, &after, want.number);
            emitters.add(&world, &call, &after, want);
            readout.add(&world, &call, &after, want);
            presses.add(&world, &call, &after, want);
            thin.add(&world, &call, &after, want);
            chosen.add(&world, &call, &after, want);
            booked.add(&world, &call, &after, want);
            world = after;
            *seen.entry((library::name(&call), want.number)).or_default() += 1;
        }
    }
    println!("{lists} lists of {CALLS} calls, no difference; calls by kind and answer:");
    for ((kind, number), times) in &seen {
        println!("  {kind} {number}: {times}");
    }
    long.print();
    emitters.print();
    readout.print();
    presses.print();
    thin.print();
    chosen.print();
    booked.print();
    if lists >= FULL {
        let unmet = long.missing().into_iter().chain(emitters.missing());
        let unmet = unmet.chain(readout.missing()).chain(presses.missing());
        let unmet = unmet.chain(thin.missing()).chain(chosen.missing());
        all_reached(&seen, unmet.chain(booked.missing()));
    }
}

/// Fails if a call did not get an answer that bindings/calls.txt names for it, or a situation was not met.
fn all_reached(seen: &BTreeMap<(&str, u32), u64>, unmet: impl Iterator<Item = String>) {
    let pairs = library::TABLE.iter().flat_map(|(name, refusals)| {
        let answers = std::iter::once(0).chain(refusals.iter().copied());
        answers.map(move |number| (*name, number))
    });
    let mut missing: Vec<String> = pairs
        .filter(|pair| !seen.contains_key(pair))
        .map(|(name, number)| format!("{name} never got {number}"))
        .collect();
    missing.extend(unmet);
    if !missing.is_empty() {
        println!("not reached: {}", missing.join("; "));
        std::process::exit(1);
    }
    println!("every answer of bindings/calls.txt was reached by its call");
}

/// Prints the lines that put amounts and ledger in place; the first of them writes books, so the ledger comes after it.
fn print_gas_and_ledger(world: &World) {
    println!("tracers{}", library::numbers(&world.tracers));
    println!("ledger{}", library::numbers(&world.ledger));
}

/// Prints the lists as a script that shows the world after every call.
fn script(lists: u64) {
    for list in 0..lists {
        let mut random = worlds::Random::new(list + 1);
        let grid = worlds::grid(&mut random, u32::from(list % 4 == 3));
        let mut world = worlds::world_with_ledger(&mut random, grid);
        println!("grid {} {} {} {}", grid.w, grid.r, grid.k, grid.n);
        println!("air{}", library::numbers(&world.air));
        print_gas_and_ledger(&world);
        for _ in 0..CALLS {
            let before = world.clone();
            let call = worlds::next_call(&mut random, &mut world);
            if world != before {
                print_gas_and_ledger(&world);
            }
            println!("{}\nshow\nshow_ledger", library::line(&call));
            reference::call(&mut world, &call);
        }
    }
}

/// Writes an input of so many records.
fn long_loop(records: u64) {
    let mut output = std::io::BufWriter::new(std::io::stdout().lock());
    inputs::long_loop(records, |record| {
        output.write_all(&record).expect("standard output")
    });
    output.flush().expect("standard output");
}

fn main() -> ExitCode {
    let arguments: Vec<String> = std::env::args().skip(1).collect();
    let number = |place: usize, default| {
        arguments.get(place).map_or(default, |s| {
            s.parse().expect("how many lists, inputs or records")
        })
    };
    match arguments.first().map(String::as_str) {
        Some("--script") => script(number(1, 2_000)),
        Some("runner") => {
            let program = arguments.get(2).map_or("crates/runner/out/runner", String::as_str);
            return runner::compare(number(1, 20_000), program);
        }
        Some("long-run") => std::io::stdout()
            .write_all(&inputs::long_run().concat())
            .expect("standard output"),
        Some("long-loop") => long_loop(number(1, 5_000_000)),
        _ => compare_calls(number(0, 2_000)),
    }
    ExitCode::SUCCESS
}
