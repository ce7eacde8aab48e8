//! "Books on the record": document 02's three sums for each tracer, their place in the ledger, and
//! the test of them. "The world's record gains these three 32-bit sums for each tracer, written by
//! load, emission, tick and withdrawal."

use crate::grid::World;
use crate::{emitters, ledger, limiter, refusal};

/// Where a block's books stand: after the limiter.
const PLACE: usize = emitters::NUMBERS + limiter::NUMBERS;
/// Where emitted stands, after loaded.
const EMITTED: usize = PLACE + 1;
/// Where withdrawn stands, after emitted.
const WITHDRAWN: usize = PLACE + 2;
/// The books' numbers in a block of the ledger, its last ones.
pub(crate) const NUMBERS: usize = 3;

/// "loaded, emitted and withdrawn amounts" as an accepted load leaves them: the tracer's total is
/// loaded, and nothing is emitted or withdrawn yet.
pub(crate) fn after_load(total: u32) -> [u32; NUMBERS] {
    [total, 0, 0]
}

/// Puts loaded, emitted and withdrawn in a block, whatever they are.
pub(crate) fn put(block: &mut [u32], books: [u32; NUMBERS]) {
    block[PLACE..PLACE + NUMBERS].copy_from_slice(&books);
}

/// "loaded + emitted − withdrawn equals the summed cells", and the left side is not negative: with
/// withdrawn on the other side there is no negative number, and 64 bits hold both sums.
fn agree(block: &[u32], summed_cells: u64) -> bool {
    let [loaded, emitted, withdrawn] = [PLACE, EMITTED, WITHDRAWN].map(|at| u64::from(block[at]));
    loaded + emitted == withdrawn + summed_cells
}

/// "Every call but a load tests for each tracer that loaded + emitted − withdrawn equals the summed
/// cells". "22 when that test fails or the left side is negative".
pub(crate) fn check(world: &World) -> Result<(), u32> {
    let good = ledger::blocks(world)
        .enumerate()
        .all(|(tracer, block)| agree(block, world.total(tracer)));
    good.then_some(()).ok_or(refusal::BOOKS)
}

/// A sum with this amount added; none if it "would pass 4,294,967,295".
fn added(sum: u32, amount: u64) -> Option<u32> {
    u32::try_from(u64::from(sum) + amount).ok()
}

/// Adds what an emission or a tick emits to the tracer's emitted sum. "6 and 7 are also given when a
/// sum would pass 4,294,967,295."
pub(crate) fn emit(world: &mut World, tracer: usize, amount: u64) -> Result<(), u32> {
    let emitted = &mut ledger::block_mut(world, tracer)[EMITTED];
    *emitted = added(*emitted, amount).ok_or(refusal::EMISSION)?;
    Ok(())
}

/// Adds what a withdrawal takes to the tracer's withdrawn sum, or refusal 7 as above.
pub(crate) fn withdraw(world: &mut World, tracer: usize, amount: u32) -> Result<(), u32> {
    let withdrawn = &mut ledger::block_mut(world, tracer)[WITHDRAWN];
    *withdrawn = added(*withdrawn, u64::from(amount)).ok_or(refusal::WITHDRAWAL)?;
    Ok(())
}
