//! "Stacks that start and stop": the standing emitters of document 02, and their numbers in a
//! tracer's block of the ledger (ledger.rs).

use crate::calls::check_indices;
use crate::grid::{Grid, World, MOST_TRACER};
use crate::{books, ledger, refusal};

/// "Keep up to 16 standing emitters for each tracer"
const MOST_EMITTERS: usize = 16;
/// An emitter's numbers in the ledger: id, cell, units.
const EMITTER_NUMBERS: usize = 3;
/// Where a block's emitters start: after how many stand, and the low and the high 32 bits of
/// their units a tick.
const FIRST_EMITTER: usize = 3;
/// The emitters' numbers in a block of the ledger, its first ones.
pub(crate) const NUMBERS: usize = FIRST_EMITTER + MOST_EMITTERS * EMITTER_NUMBERS;

/// "cell and units a tick", "under an id of 32 bits"
#[derive(Clone, Copy)]
struct Emitter {
    id: u32,
    cell: u32,
    units: u32,
}

/// Where emitter i stands in its block.
fn place(i: usize) -> std::ops::Range<usize> {
    let first = FIRST_EMITTER + i * EMITTER_NUMBERS;
    first..first + EMITTER_NUMBERS
}

/// "the sum over the emitters present"
fn sum(emitters: &[Emitter]) -> u64 {
    emitters.iter().map(|it| u64::from(it.units)).sum()
}

/// The sum that a block keeps: "Units are 32-bit, the reading 64-bit."
fn kept_sum(block: &[u32]) -> u64 {
    u64::from(block[1]) + (u64::from(block[2]) << 32)
}

/// A block's standing emitters. "An emitter record handed in with, for any tracer, an absent
/// cell, an id twice, more than 16 entries or a false sum is refused by 5".
fn standing(grid: &Grid, block: &[u32]) -> Result<Vec<Emitter>, u32> {
    let number = block[0] as usize;
    if number > MOST_EMITTERS {
        return Err(refusal::INDEX);
    }
    let emitters: Vec<Emitter> = (0..number)
        .map(|i| &block[place(i)])
        .map(|numbers| Emitter {
            id: numbers[0],
            cell: numbers[1],
            units: numbers[2],
        })
        .collect();
    for (i, emitter) in emitters.iter().enumerate() {
        Grid::present(emitter.cell, grid.cells())?;
        if emitters[..i].iter().any(|other| other.id == emitter.id) {
            return Err(refusal::INDEX);
        }
    }
    if kept_sum(block) != sum(&emitters) {
        return Err(refusal::INDEX);
    }
    Ok(emitters)
}

/// The standing emitters of a tracer, where the record of every tracer is good.
fn record(world: &World, tracer: usize) -> Result<Vec<Emitter>, u32> {
    let blocks = ledger::blocks(world);
    let records: Result<Vec<_>, u32> = blocks.map(|block| standing(&world.grid, block)).collect();
    Ok(records?.swap_remove(tracer))
}

/// Puts a tracer's emitters in its block: how many stand, their units a tick, "kept up to date",
/// each emitter, and 0 where one stood and none stands now. Numbers after these stay.
fn put(world: &mut World, tracer: usize, emitters: &[Emitter]) {
    let block = ledger::block_mut(world, tracer);
    for i in emitters.len()..block[0] as usize {
        block[place(i)].fill(0);
    }
    for (i, emitter) in emitters.iter().enumerate() {
        block[place(i)].copy_from_slice(&[emitter.id, emitter.cell, emitter.units]);
    }
    let sum = sum(emitters);
    block[0] = emitters.len() as u32;
    block[1] = (sum % (1 << 32)) as u32;
    block[2] = (sum >> 32) as u32;
}

/// "They can be added under an id of 32 bits". "18 when the tracer has 16 emitters or already
/// has that id". A new one goes after the last.
pub fn add(world: &mut World, tracer: u32, new: [u32; 3]) -> Result<u64, u32> {
    let [cell, id, units] = new;
    let (tracer, _) = check_indices(&world.grid, tracer, cell)?;
    let mut emitters = record(world, tracer)?;
    if emitters.len() == MOST_EMITTERS || emitters.iter().any(|it| it.id == id) {
        return Err(refusal::NO_PLACE);
    }
    emitters.push(Emitter { id, cell, units });
    put(world, tracer, &emitters);
    Ok(0)
}

/// "and removed by it. A removed one's place is used again." "19 when the id is absent". The
/// last one takes the removed one's place.
pub fn remove(world: &mut World, tracer: u32, id: u32) -> Result<u64, u32> {
    let tracer = Grid::present(tracer, world.grid.n as usize)?;
    let mut emitters = record(world, tracer)?;
    let found = emitters.iter().position(|it| it.id == id);
    emitters.swap_remove(found.ok_or(refusal::NO_EMITTER)?);
    put(world, tracer, &emitters);
    Ok(0)
}

/// "A tick names one tracer and emits all its emitters, or is refused whole by 6." What it emits is
/// booked as one amount.
pub fn tick(world: &mut World, tracer: u32) -> Result<u64, u32> {
    let tracer = Grid::present(tracer, world.grid.n as usize)?;
    let emitters = record(world, tracer)?;
    let units = sum(&emitters);
    if world.total(tracer) + units > MOST_TRACER {
        return Err(refusal::EMISSION);
    }
    books::emit(world, tracer, units)?;
    for emitter in emitters {
        world.tracer_mut(tracer)[emitter.cell as usize] += emitter.units;
    }
    Ok(0)
}

/// "A reading gives the tracer's units a tick, kept up to date".
pub fn units_a_tick(world: &World, tracer: u32) -> Result<u64, u32> {
    let tracer = Grid::present(tracer, world.grid.n as usize)?;
    record(world, tracer)?;
    Ok(kept_sum(ledger::block(world, tracer)))
}
