//! The ledger: for each tracer a block of numbers, its emitters' (emitters.rs), then its limiter's
//! (limiter.rs), then its books' (books.rs). Where each number stands is the project's decision, not
//! the document's.

use crate::grid::{Grid, World};
use crate::limiter::Limiter;
use crate::{books, emitters, limiter};

/// A tracer's block of the ledger.
pub(crate) const BLOCK: usize = emitters::NUMBERS + limiter::NUMBERS + books::NUMBERS;

/// N blocks, those of all tracers, for a grid that passed its check.
pub(crate) fn numbers(grid: &Grid) -> usize {
    grid.n as usize * BLOCK
}

/// The block of each tracer.
pub(crate) fn blocks(world: &World) -> std::slice::Chunks<'_, u32> {
    world.ledger.chunks(BLOCK)
}

/// The block of tracer t.
pub(crate) fn block(world: &World, tracer: usize) -> &[u32] {
    &world.ledger[tracer * BLOCK..(tracer + 1) * BLOCK]
}

/// The same, to be written.
pub(crate) fn block_mut(world: &mut World, tracer: usize) -> &mut [u32] {
    &mut world.ledger[tracer * BLOCK..(tracer + 1) * BLOCK]
}

/// The limiter of each tracer, for a call that tests 21 before its indices: 21, then 22, "before 5,
/// and after 21 where a call tests 21 there" (document 02).
pub(crate) fn limiters(world: &World) -> Result<Vec<Limiter>, u32> {
    let limiters = limiter::of_tracers(world)?;
    books::check(world)?;
    Ok(limiters)
}

/// The ledger as an accepted load leaves it for tracers with these totals, whatever stood in it: "A
/// load leaves none standing, and doesn't test the old ones." "A load gives every tracer the first
/// limiter, with both bounds 0" (document 02). Books begin anew.
pub(crate) fn after_load(totals: &[u32]) -> Vec<u32> {
    let block = |&total: &u32| {
        let books = books::after_load(total);
        [&[0; emitters::NUMBERS][..], &limiter::AFTER_LOAD, &books].concat()
    };
    totals.iter().flat_map(block).collect()
}
