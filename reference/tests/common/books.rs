//! Document 02's books: a tracer's three sums as they stand in the ledger, and random ones.

use super::{cells, Random, BLOCK};
use reference::World;

/// Where a block's books start.
pub const PLACE: usize = 56;

/// Loaded, emitted and withdrawn, whatever they are.
pub type Books = [u32; 3];

/// What stands in the ledger.
pub fn books_of(world: &World, tracer: usize) -> Books {
    let place = BLOCK * tracer + PLACE;
    world.ledger[place..place + 3].try_into().unwrap()
}

/// Puts them in the ledger, true or false.
pub fn put_books(world: &mut World, tracer: usize, books: Books) {
    let place = BLOCK * tracer + PLACE;
    world.ledger[place..place + 3].copy_from_slice(&books);
}

/// A tracer's sum over all cells.
pub fn total_of(world: &World, tracer: usize) -> u64 {
    let cells = cells(&world.grid);
    let amounts = world.tracers.iter().skip(tracer * cells).take(cells);
    amounts.map(|&amount| u64::from(amount)).sum()
}

/// "loaded + emitted − withdrawn equals the summed cells", with signed numbers.
pub fn balanced(world: &World) -> bool {
    (0..world.grid.n as usize).all(|tracer| {
        let [loaded, emitted, withdrawn] = books_of(world, tracer).map(i64::from);
        loaded + emitted - withdrawn == total_of(world, tracer) as i64
    })
}

/// The books of a load in each block that the ledger has: for worlds whose amounts a test has
/// changed. A total that is not 32-bit, which no load accepts, is left out.
pub fn balance(world: &mut World) {
    for tracer in 0..world.ledger.len() / BLOCK {
        let total = u32::try_from(total_of(world, tracer)).unwrap_or(0);
        put_books(world, tracer, [total, 0, 0]);
    }
}

/// Books that agree with this total: those of a load, or of any history, sums at their limits
/// included.
pub fn random_books(random: &mut Random, total: u64) -> Books {
    let most = u64::from(u32::MAX);
    let withdrawn = match random.next() % 6 {
        0 | 1 => 0,
        2 => random.next() % 2_000,
        3 => most - random.next() % 2_000,
        4 => most,
        _ => random.next() % (most + 1),
    };
    let all = total + withdrawn;
    let (least, greatest) = (all.saturating_sub(most), all.min(most));
    let emitted = match random.next() % 4 {
        0 => least,
        1 => greatest,
        2 => greatest - (random.next() % 2_000).min(greatest - least),
        _ => least + random.next() % (greatest - least + 1),
    };
    [all - emitted, emitted, withdrawn].map(|sum| sum as u32)
}

/// Random books for each tracer, which agree with its cells.
pub fn put_random_books(random: &mut Random, world: &mut World) {
    for tracer in 0..world.grid.n as usize {
        let books = random_books(random, total_of(world, tracer));
        put_books(world, tracer, books);
    }
}
