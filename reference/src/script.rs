//! A text front end: lines that set a raw world, call and show.

use crate::readout::{self, Pair};
use crate::walk::{self, State};
use crate::{books, call, ledger, Call, Grid, Limiter, World};
use std::str::FromStr;

/// What is wrong with a line `walk` or `pairs` if no remap accepts such a column.
const NO_COLUMN: &str = "no remap accepts this column";

/// What `run` gives: the lines printed, and the error if a line is bad.
pub struct Outcome {
    pub lines: String,
    pub error: Option<String>,
}

/// Runs the script up to its end or its first bad line. Before any `grid` line the grid is
/// 0 0 0 0 and the lists are empty.
pub fn run(script: &str) -> Outcome {
    let grid = Grid {
        w: 0,
        r: 0,
        k: 0,
        n: 0,
    };
    let mut world = World {
        grid,
        air: Vec::new(),
        tracers: Vec::new(),
        ledger: Vec::new(),
    };
    let mut lines = String::new();
    for (index, line) in script.lines().enumerate() {
        match run_line(&mut world, line) {
            Ok(printed) => lines.push_str(&printed),
            Err(fault) => {
                let error = Some(format!("line {}: {}", index + 1, fault));
                return Outcome { lines, error };
            }
        }
    }
    Outcome { lines, error: None }
}

/// One line: what it prints, or what is wrong with it.
fn run_line(world: &mut World, line: &str) -> Result<String, String> {
    let words: Vec<&str> = line.split_whitespace().collect();
    let Some((&name, arguments)) = words.split_first() else {
        return Ok(String::new());
    };
    if name.starts_with('#') {
        return Ok(String::new());
    }
    match name {
        "grid" => {
            world.grid = read_grid(arguments)?;
            world.ledger = ledger_of(&world.grid);
        }
        "air" => world.air = numbers(arguments)?,
        "tracers" => {
            world.tracers = numbers(arguments)?;
            book_loaded(world);
        }
        "ledger" => world.ledger = numbers(arguments)?,
        "books" => put_books(world, fixed(arguments)?)?,
        "show" => {
            fixed::<0>(arguments)?;
            return Ok(show(world));
        }
        "show_ledger" => {
            fixed::<0>(arguments)?;
            return Ok(show_list("ledger", &world.ledger));
        }
        "walk" => return walk_lines(world, arguments),
        "pairs" => return pair_lines(world, arguments),
        _ => {
            let answer = call(world, &read_call(name, arguments)?);
            return Ok(format!("{} {} {}\n", name, answer.number, answer.count));
        }
    }
    Ok(String::new())
}

/// The walk down one column, whose layers are the lists of the lines `air` and `tracers`, under the
/// first limiter: its number of steps, then a line for each state.
fn walk_lines(world: &World, arguments: &[&str]) -> Result<String, String> {
    let numbers: Vec<u32> = numbers(arguments)?;
    let states = match numbers.split_first() {
        Some((&cap @ (0 | 1), table)) => {
            let limiter = Limiter::Present;
            walk::states_by_table(&limiter, &world.air, &world.tracers, cap == 1, table)
        }
        _ => None,
    };
    let states = states.ok_or(NO_COLUMN)?;
    let mut lines = format!("walk {}\n", walk::steps(&states));
    for State {
        layers,
        above,
        amount,
        edges,
        mark,
    } in states
    {
        lines.push_str(&format!("{layers} {above} {amount} {edges} {mark}\n"));
    }
    Ok(lines)
}

/// The pairs of an old and a new layer of one column, whose air is the list of the line `air`:
/// their number, then a line for each.
fn pair_lines(world: &World, arguments: &[&str]) -> Result<String, String> {
    let table: Vec<u32> = numbers(arguments)?;
    let pairs = readout::pairs_by_table(&world.air, &table).ok_or(NO_COLUMN)?;
    let mut lines = format!("pairs {}\n", pairs.len());
    for Pair { old, new, from, to } in pairs {
        lines.push_str(&format!("{old} {new} {from} {to}\n"));
    }
    Ok(lines)
}

fn read_grid(arguments: &[&str]) -> Result<Grid, String> {
    let [w, r, k, n] = fixed(arguments)?;
    Ok(Grid { w, r, k, n })
}

/// The ledger as an accepted load of a world without gas leaves it: no emitter stands, every tracer
/// has the first limiter, and its books are 0; an empty list where no call accepts the grid's N.
fn ledger_of(grid: &Grid) -> Vec<u32> {
    if grid.n <= 8 {
        ledger::after_load(&vec![0; grid.n as usize])
    } else {
        Vec::new()
    }
}

/// The books as an accepted load of these tracers leaves them, in each block that the ledger has:
/// loaded is the sum of the tracer's amounts, as far as they are there, or 0 if it is not 32-bit.
fn book_loaded(world: &mut World) {
    let Grid { w, r, k, n } = world.grid;
    let layer_cells = (r as usize * w as usize).saturating_add(2);
    let cells = layer_cells.saturating_mul(k as usize);
    let blocks = world.ledger.chunks_exact_mut(ledger::BLOCK);
    for (tracer, block) in blocks.take(n as usize).enumerate() {
        let amounts = world.tracers.iter().skip(cells.saturating_mul(tracer));
        let total: u64 = amounts.take(cells).map(|&amount| u64::from(amount)).sum();
        books::put(block, books::after_load(total.try_into().unwrap_or(0)));
    }
}

/// Loaded, emitted and withdrawn of one tracer, put in its block of the ledger.
fn put_books(world: &mut World, line: [u32; 4]) -> Result<(), String> {
    let [tracer, loaded, emitted, withdrawn] = line;
    let mut blocks = world.ledger.chunks_exact_mut(ledger::BLOCK);
    let block = blocks.nth(tracer as usize);
    let block = block.ok_or(format!("the ledger has no block of tracer {tracer}"))?;
    books::put(block, [loaded, emitted, withdrawn]);
    Ok(())
}

fn read_call(name: &str, arguments: &[&str]) -> Result<Call, String> {
    Ok(match name {
        "load" => {
            fixed::<0>(arguments)?;
            Call::Load
        }
        "emission" => {
            let [tracer, cell, amount] = fixed(arguments)?;
            Call::Emission {
                tracer,
                cell,
                amount,
            }
        }
        "withdrawal" => {
            let [tracer, cell, amount] = fixed(arguments)?;
            Call::Withdrawal {
                tracer,
                cell,
                amount,
            }
        }
        "remap" => Call::Remap {
            table: numbers(arguments)?,
        },
        "total" => {
            let [tracer] = fixed(arguments)?;
            Call::Total { tracer }
        }
        "cell" => {
            let [tracer, cell] = fixed(arguments)?;
            Call::Cell { tracer, cell }
        }
        _ => return read_sweep(name, arguments),
    })
}

/// The sweeps, and the count before a sweep.
fn read_sweep(name: &str, arguments: &[&str]) -> Result<Call, String> {
    Ok(match name {
        "zonal" => {
            let ([layer, row], fluxes) = fixed_then_fluxes(arguments)?;
            Call::Zonal { layer, row, fluxes }
        }
        "long_zonal" => {
            let ([layer, row], fluxes) = fixed_then_fluxes(arguments)?;
            Call::LongZonal { layer, row, fluxes }
        }
        "count_zonal" => {
            let ([layer, row], fluxes) = fixed_then_fluxes(arguments)?;
            Call::CountZonal { layer, row, fluxes }
        }
        "zonal_with_count" => {
            let ([layer, row, given], fluxes) = fixed_then_fluxes(arguments)?;
            Call::ZonalWithCount {
                layer,
                row,
                given,
                fluxes,
            }
        }
        "meridional" => {
            let ([layer], fluxes) = fixed_then_fluxes(arguments)?;
            Call::Meridional { layer, fluxes }
        }
        _ => return read_emitter_call(name, arguments),
    })
}

/// The calls of document 02's second request.
fn read_emitter_call(name: &str, arguments: &[&str]) -> Result<Call, String> {
    Ok(match name {
        "add_emitter" => {
            let [tracer, cell, id, units] = fixed(arguments)?;
            Call::AddEmitter {
                tracer,
                cell,
                id,
                units,
            }
        }
        "remove_emitter" => {
            let [tracer, id] = fixed(arguments)?;
            Call::RemoveEmitter { tracer, id }
        }
        "tick" => {
            let [tracer] = fixed(arguments)?;
            Call::Tick { tracer }
        }
        "units_a_tick" => {
            let [tracer] = fixed(arguments)?;
            Call::UnitsATick { tracer }
        }
        _ => return read_set_limiter(name, arguments),
    })
}

/// The call of document 02's seventh request.
fn read_set_limiter(name: &str, arguments: &[&str]) -> Result<Call, String> {
    if name != "set_limiter" {
        return Err(format!("unknown word '{name}'"));
    }
    let [tracer, limiter, lo, hi] = fixed_words(arguments)?;
    let [tracer, limiter] = fixed(&[tracer, limiter])?;
    let [lo, hi] = fixed_numbers(&[lo, hi])?;
    Ok(Call::SetLimiter {
        tracer,
        limiter,
        lo,
        hi,
    })
}

/// All words as numbers.
fn numbers<T: FromStr>(words: &[&str]) -> Result<Vec<T>, String> {
    let number = |word: &&str| word.parse().map_err(|_| format!("bad number '{word}'"));
    words.iter().map(number).collect()
}

/// Exactly L words.
fn fixed_words<'a, const L: usize>(words: &[&'a str]) -> Result<[&'a str; L], String> {
    let found = words.len();
    <[&str; L]>::try_from(words).map_err(|_| format!("{L} numbers are expected and {found} found"))
}

/// Exactly L numbers.
fn fixed_numbers<T: FromStr, const L: usize>(words: &[&str]) -> Result<[T; L], String> {
    let found = words.len();
    <[T; L]>::try_from(numbers(words)?)
        .map_err(|_| format!("{L} numbers are expected and {found} found"))
}

/// Exactly L unsigned numbers of 32 bits.
fn fixed<const L: usize>(words: &[&str]) -> Result<[u32; L], String> {
    fixed_numbers(words)
}

/// Exactly L unsigned numbers and then any number of fluxes.
fn fixed_then_fluxes<const L: usize>(words: &[&str]) -> Result<([u32; L], Vec<i32>), String> {
    let split = L.min(words.len());
    let (first, fluxes) = words.split_at(split);
    Ok((fixed(first)?, numbers(fluxes)?))
}

/// The two lines `air ...` and `tracers ...`.
fn show(world: &World) -> String {
    format!(
        "{}{}",
        show_list("air", &world.air),
        show_list("tracers", &world.tracers)
    )
}

fn show_list(name: &str, numbers: &[u32]) -> String {
    let mut line = String::from(name);
    for number in numbers {
        line.push_str(&format!(" {number}"));
    }
    line.push('\n');
    line
}
