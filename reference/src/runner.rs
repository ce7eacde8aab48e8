//! "The runner program."

use crate::{call, ledger, refusal, Answer, Call, Grid, World};

/// What the records so far have set up.
enum State {
    Start,
    HasGrid(Grid),
    Loaded(World),
}

/// The lines that the runner prints for its whole input.
pub fn run(input: &[u8]) -> String {
    let mut lines = String::new();
    let mut state = State::Start;
    let mut rest = input;
    while let Some((&kind, after_kind)) = rest.split_first() {
        let (answer, after_record) = record(&mut state, kind, after_kind);
        lines.push_str(&format!("{} {} {}\n", kind, answer.number, answer.count));
        if ends_program(kind, answer.number) {
            break;
        }
        rest = after_record;
    }
    lines
}

/// "The program ends after 13, 14, 15 or a refused kind 1."
fn ends_program(kind: u8, number: u32) -> bool {
    (refusal::KIND..=refusal::PROGRAM_GRID).contains(&number) || (kind == 1 && number != 0)
}

/// One record: its answer and the bytes after it. "Kind is tested before length, length before
/// the call's own places, 15 after 1."
fn record<'a>(state: &mut State, kind: u8, after_kind: &'a [u8]) -> (Answer, &'a [u8]) {
    let Some(length) = body_length(state, kind) else {
        return (refused(refusal::KIND), after_kind);
    };
    if after_kind.len() < length {
        return (refused(refusal::RECORD_LENGTH), after_kind);
    }
    let (body, after_record) = after_kind.split_at(length);
    (carry_out(state, kind, body), after_record)
}

fn refused(number: u32) -> Answer {
    Answer { number, count: 0 }
}

/// "a body whose length the kind and the grid fix"; none if the kind is unknown or the record
/// is out of place: "Kind 1 comes first and once; 3 to 9 need an accepted load before them."
fn body_length(state: &State, kind: u8) -> Option<usize> {
    match (state, kind) {
        (State::Start, 1) => Some(4),
        (State::HasGrid(grid), 2) => Some(load_length(grid)),
        (State::Loaded(world), 2) => Some(load_length(&world.grid)),
        (State::Loaded(_), 3 | 4) => Some(1 + 2 + 4),
        (State::Loaded(world), 5) => Some(1 + 1 + 4 * world.grid.zonal_fluxes()),
        (State::Loaded(world), 6) => Some(1 + 4 * world.grid.meridional_fluxes()),
        (State::Loaded(world), 7) => Some(4 * world.grid.table_numbers()),
        (State::Loaded(_), 8) => Some(1),
        (State::Loaded(_), 9) => Some(1 + 2),
        _ => None,
    }
}

/// "2 load: all air, then all tracers, 4 bytes each."
fn load_length(grid: &Grid) -> usize {
    4 * (grid.cells() + grid.tracer_amounts())
}

/// A record in its place with its whole body.
fn carry_out(state: &mut State, kind: u8, body: &[u8]) -> Answer {
    match (&mut *state, kind) {
        (State::Start, _) => match read_grid(body) {
            Ok(grid) => {
                *state = State::HasGrid(grid);
                Answer {
                    number: 0,
                    count: 0,
                }
            }
            Err(number) => refused(number),
        },
        (&mut State::HasGrid(grid), _) => load(state, grid, body),
        (State::Loaded(world), 2) => {
            let grid = world.grid;
            load(state, grid, body)
        }
        (State::Loaded(world), _) => call(world, &read_call(kind, body)),
    }
}

/// "1 grid: W, R, K, N, a byte each." "15 after 1": "K·C above 2,048 or N above 2".
fn read_grid(body: &[u8]) -> Result<Grid, u32> {
    let grid = Grid {
        w: u32::from(body[0]),
        r: u32::from(body[1]),
        k: u32::from(body[2]),
        n: u32::from(body[3]),
    };
    grid.check()?;
    if grid.cells() > 2_048 || grid.n > 2 {
        return Err(refusal::PROGRAM_GRID);
    }
    Ok(grid)
}

/// "After a refused load nothing counts as loaded, so records 3 to 9 get 13 until a load is
/// accepted."
fn load(state: &mut State, grid: Grid, body: &[u8]) -> Answer {
    let numbers = unsigned_numbers(body);
    let (air, tracers) = numbers.split_at(grid.cells());
    let mut world = World {
        grid,
        air: air.to_vec(),
        tracers: tracers.to_vec(),
        ledger: vec![0; ledger::numbers(&grid)],
    };
    let answer = call(&mut world, &Call::Load);
    *state = if answer.number == 0 {
        State::Loaded(world)
    } else {
        State::HasGrid(grid)
    };
    answer
}

/// "3 emission and 4 withdrawal: tracer 1 byte, cell over all layers 2 bytes, amount 4.
/// 5 zonal: layer 1, row 1, fluxes 4 each. 6 meridional: layer 1, fluxes. 7 remap: pairs a, b,
/// 4 each. 8 total: tracer 1. 9 cell: tracer 1, cell 2."
fn read_call(kind: u8, body: &[u8]) -> Call {
    let first = u32::from(body[0]);
    let cell = |body: &[u8]| u32::from(u16::from_le_bytes([body[1], body[2]]));
    let amount = |body: &[u8]| u32::from_le_bytes([body[3], body[4], body[5], body[6]]);
    match kind {
        3 => Call::Emission {
            tracer: first,
            cell: cell(body),
            amount: amount(body),
        },
        4 => Call::Withdrawal {
            tracer: first,
            cell: cell(body),
            amount: amount(body),
        },
        5 => Call::Zonal {
            layer: first,
            row: u32::from(body[1]),
            fluxes: signed_numbers(&body[2..]),
        },
        6 => Call::Meridional {
            layer: first,
            fluxes: signed_numbers(&body[1..]),
        },
        7 => Call::Remap {
            table: unsigned_numbers(body),
        },
        8 => Call::Total { tracer: first },
        9 => Call::Cell {
            tracer: first,
            cell: cell(body),
        },
        _ => unreachable!("the kind has been tested"),
    }
}

/// "Numbers are little-endian, unsigned but for fluxes."
fn unsigned_numbers(bytes: &[u8]) -> Vec<u32> {
    bytes
        .chunks_exact(4)
        .map(|four| u32::from_le_bytes([four[0], four[1], four[2], four[3]]))
        .collect()
}

/// Fluxes, signed in two's complement.
fn signed_numbers(bytes: &[u8]) -> Vec<i32> {
    bytes
        .chunks_exact(4)
        .map(|four| i32::from_le_bytes([four[0], four[1], four[2], four[3]]))
        .collect()
}
