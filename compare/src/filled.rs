//! Inputs of the runner in which a gas is emitted and withdrawn until the sums of its book are full, and that go on.

use crate::books::{self, MOST_SUM};
use crate::inputs::{each_of_whole, next_call, program_grid, Input};
use crate::reached::BY_SUM;
use crate::worlds::{sizes, Random, MOST};
use reference::{Call, World};

/// 200 to 400 records on a small grid, each in its place and whole.
pub fn input(random: &mut Random) -> Input {
    let grid = program_grid(random, false);
    let size = random.between(200, 400);
    let (mut pieces, mut by_sum) = (Vec::new(), [0; BY_SUM.len()]);
    let ask = |random: &mut Random, world: &World| {
        let asked = filling(random, world);
        if let Some(sum) = refused_by_sum(world, &asked) {
            by_sum[sum] += 1;
        }
        asked
    };
    each_of_whole(random, grid, [size, 400], ask, |piece| pieces.push(piece));
    Input { pieces, by_sum }
}

/// Mostly an emission or a withdrawal of the last tracer, of as much as can be.
fn filling(random: &mut Random, world: &World) -> Call {
    let changed = books::change(random, world, world.grid.n - 1);
    match changed {
        Some(call) if !random.one_in(16) => call,
        _ => next_call(random, world),
    }
}

/// Which of `BY_SUM` refuses the call, where nothing else does.
fn refused_by_sum(world: &World, asked: &Call) -> Option<usize> {
    let (tracer, cell, amount) = match *asked {
        Call::Emission {
            tracer,
            cell,
            amount,
        }
        | Call::Withdrawal {
            tracer,
            cell,
            amount,
        } => (tracer as usize, cell as usize, u64::from(amount)),
        _ => return None,
    };
    let (cells, _) = sizes(&world.grid);
    let gas = world.tracers.chunks(cells as usize).nth(tracer)?;
    let has = u64::from(*gas.get(cell)?);
    let (book, total) = books::standing(world).nth(tracer)?;
    let (which, sum, allowed) = match asked {
        Call::Emission { .. } => (0, book.emitted, total + amount <= MOST),
        _ => (1, book.withdrawn, amount <= has),
    };
    (allowed && sum + amount > MOST_SUM).then_some(which)
}
