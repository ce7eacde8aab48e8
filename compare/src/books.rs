//! Seeded books: those of a load, of any history, with sums at their ends, and broken ones; the calls that bring a sum to its end; numbers
//! changed behind the library's back.

use crate::ledgers::BLOCK;
use crate::worlds::{in_range, index, sizes, Random, MOST};
use reference::{Call, World};

/// A book's numbers in a block of the ledger, its last ones: what was loaded, emitted and withdrawn.
pub const NUMBERS: usize = 3;
/// Where they start.
pub const PLACE: usize = BLOCK - NUMBERS;
/// The most that a sum holds.
pub const MOST_SUM: u64 = u32::MAX as u64;
/// What a sum of 32 bits does not show.
pub const WRAP: u64 = 1 << 32;

/// What stands for a tracer.
#[derive(Clone, Copy, PartialEq, Eq)]
pub struct Book {
    pub loaded: u64,
    pub emitted: u64,
    pub withdrawn: u64,
}

impl Book {
    /// As a load of so many units leaves it.
    pub fn of_load(total: u64) -> Book {
        Book {
            loaded: total.min(MOST_SUM),
            emitted: 0,
            withdrawn: 0,
        }
    }

    fn of_block(block: &[u32]) -> Book {
        let [loaded, emitted, withdrawn] = [0, 1, 2].map(|i| u64::from(block[PLACE + i]));
        Book {
            loaded,
            emitted,
            withdrawn,
        }
    }

    pub fn numbers(&self) -> [u32; NUMBERS] {
        [self.loaded, self.emitted, self.withdrawn].map(|sum| sum as u32)
    }

    /// What was loaded and emitted less what was withdrawn; below 0 in some broken books.
    pub fn left(&self) -> i64 {
        (self.loaded + self.emitted) as i64 - self.withdrawn as i64
    }

    pub fn balances(&self, total: u64) -> bool {
        self.left() == total as i64
    }
}

/// Each tracer's amounts, as far as the list has them.
fn gases(world: &World) -> impl Iterator<Item = &[u32]> {
    let (cells, tracers) = sizes(&world.grid);
    let gases = world.tracers.chunks(cells as usize);
    gases.take(tracers as usize)
}

/// Each tracer's summed cells.
pub fn totals(world: &World) -> Vec<u64> {
    let sum = |gas: &[u32]| gas.iter().map(|&t| u64::from(t)).sum();
    gases(world).map(sum).collect()
}

/// The book of each tracer whose block the ledger has, with the tracer's summed cells.
pub fn standing(world: &World) -> impl Iterator<Item = (Book, u64)> + '_ {
    let books = world.ledger.chunks_exact(BLOCK).map(Book::of_block);
    books.zip(totals(world))
}

pub fn all_balance(world: &World) -> bool {
    standing(world).all(|(book, total)| book.balances(total))
}

/// Puts a book in the tracer's block, where the ledger has one.
fn put(world: &mut World, tracer: usize, book: Book) {
    let block = world.ledger.chunks_exact_mut(BLOCK).nth(tracer);
    if let Some(block) = block {
        block[PLACE..].copy_from_slice(&book.numbers());
    }
}

/// The world with the books of a load.
pub fn with_new(world: &World) -> World {
    let mut renewed = world.clone();
    for (tracer, total) in totals(world).into_iter().enumerate() {
        put(&mut renewed, tracer, Book::of_load(total));
    }
    renewed
}

/// The world with books that balance, by what was loaded where there is such a number, else by a load's book.
pub fn mended(world: &World) -> World {
    let mut mended = world.clone();
    for (tracer, (book, total)) in standing(world).enumerate() {
        let loaded = (book.withdrawn + total).checked_sub(book.emitted);
        let found = loaded.filter(|&loaded| loaded <= MOST_SUM);
        let new = found.map_or(Book::of_load(total), |loaded| Book { loaded, ..book });
        put(&mut mended, tracer, new);
    }
    mended
}

/// A number of any length up to so many bits.
fn up_to(random: &mut Random, bits: u64) -> u64 {
    let length = random.below(bits + 1);
    random.below(1 << length)
}

/// A book that balances: of a load, of any history, with sums at or near their ends, with room for one tick of so many units or for a unit
/// less.
fn sound(random: &mut Random, total: u64, units: u64) -> Book {
    if total > MOST {
        return Book::of_load(total);
    }
    let near = MOST_SUM - up_to(random, 28);
    let any = up_to(random, 32);
    let withdrawn = [0, 0, any, any, near, MOST_SUM][random.below(6) as usize];
    let sum = total + withdrawn;
    let (least, most) = (sum.saturating_sub(MOST_SUM), sum.min(MOST_SUM));
    let emitted = match random.below(8) {
        0 | 1 => least,
        2 => most,
        3 => near,
        4 => MOST_SUM.saturating_sub(units),
        5 => WRAP.saturating_sub(units),
        6 => up_to(random, 32),
        _ => random.between(least, most),
    };
    let emitted = emitted.clamp(least, most);
    Book {
        loaded: sum - emitted,
        emitted,
        withdrawn,
    }
}

/// A book that would balance if 2^32 were nothing: so much is left too much, or too little.
fn wrapped(random: &mut Random, total: u64) -> Book {
    let (sum, withdrawn) = if total == 0 || random.one_in(2) {
        let withdrawn = random.below(MOST_SUM - total);
        (withdrawn + total + WRAP, withdrawn)
    } else {
        let sum = random.below(total);
        (sum, sum + WRAP - total)
    };
    let emitted = random.between(sum.saturating_sub(MOST_SUM), sum.min(MOST_SUM));
    Book {
        loaded: sum - emitted,
        emitted,
        withdrawn,
    }
}

/// One bit of one sum turned, or two sums exchanged.
fn altered(random: &mut Random, book: Book) -> Book {
    let mut sums = [book.loaded, book.emitted, book.withdrawn];
    let i = random.below(3) as usize;
    match random.below(4) {
        0 => sums.swap(i, 2),
        1 => sums[i] ^= 1,
        _ => sums[i] ^= 1 << random.below(32),
    }
    let [loaded, emitted, withdrawn] = sums;
    Book {
        loaded,
        emitted,
        withdrawn,
    }
}

/// Breaks a tracer's book, or changes an amount, or all of them, without a word in it. Now and then nothing is changed.
fn break_one(random: &mut Random, world: &mut World, tracer: usize) {
    let books: Vec<(Book, u64)> = standing(world).collect();
    let Some(&(book, total)) = books.get(tracer) else {
        return;
    };
    let (cells, _) = sizes(&world.grid);
    let mut gases = world.tracers.chunks_mut(cells as usize);
    let gas = gases.nth(tracer).expect("a tracer with a total");
    match random.below(10) {
        0..=3 => put(world, tracer, altered(random, book)),
        4 | 5 if total <= MOST => put(world, tracer, wrapped(random, total)),
        6 => {
            gas.fill(0);
            let mut book = Book::of_load(total.min(MOST));
            book.withdrawn = book.loaded + 1 + up_to(random, 31);
            put(world, tracer, book);
        }
        7 => {
            let other = random.below(books.len() as u64) as usize;
            put(world, tracer, books[other].0);
            put(world, other, book);
        }
        _ => gas[random.below(gas.len() as u64) as usize] ^= 1 << random.below(20),
    }
}

/// The units of a tick by a block's emitters.
fn units_of(block: &[u32]) -> u64 {
    u64::from(block[1]) + (u64::from(block[2]) << 32)
}

/// Gives the world books. In some worlds one does not balance, often the last.
pub fn lend(random: &mut Random, world: &mut World) {
    if !in_range(&world.grid) {
        return;
    }
    let units: Vec<u64> = world.ledger.chunks_exact(BLOCK).map(units_of).collect();
    let totals = totals(world);
    for (tracer, (total, units)) in totals.into_iter().zip(units).enumerate() {
        put(world, tracer, sound(random, total, units));
    }
    if random.one_in(5) {
        let n = u64::from(world.grid.n);
        let tracer = [n - 1, random.below(n)][random.below(2) as usize];
        break_one(random, world, tracer as usize);
    }
}

/// Now and then a number changes behind the library's back.
pub fn meddle(random: &mut Random, world: &mut World) {
    if in_range(&world.grid) && random.one_in(150) {
        let tracer = random.below(world.grid.n.into());
        break_one(random, world, tracer as usize);
    }
}

/// A call that adds to a sum, often at its end.
pub fn call(random: &mut Random, world: &World) -> Call {
    let tracer = index(random, world.grid.n.into());
    let tick = Call::Tick { tracer };
    if random.one_in(4) {
        return tick;
    }
    change(random, world, tracer).unwrap_or(tick)
}

/// An emission or a withdrawal of all that the sum and the total or the cell allow, or of a unit more or less; or an emission that leaves the
/// sum room for a tick.
pub fn change(random: &mut Random, world: &World, tracer: u32) -> Option<Call> {
    let ((book, total), gas) = standing(world).zip(gases(world)).nth(tracer as usize)?;
    let most = |room: u64, random: &mut Random| (room + random.below(3)).saturating_sub(1) as u32;
    let fullest = (0..gas.len()).max_by_key(|&cell| gas[cell]).unwrap_or(0);
    let any = random.below(gas.len() as u64) as usize;
    let place = if random.one_in(3) { any } else { fullest };
    let cell = place as u32;
    if random.one_in(2) {
        let room = (MOST_SUM - book.withdrawn).min(gas[place].into());
        let amount = most(room, random);
        return Some(Call::Withdrawal {
            tracer,
            cell,
            amount,
        });
    }
    let block = &world.ledger[BLOCK * tracer as usize..];
    let kept = if random.one_in(2) { units_of(block) } else { 0 };
    let room = (MOST_SUM - book.emitted).saturating_sub(kept);
    let amount = most(room.min(MOST.saturating_sub(total)), random);
    Some(Call::Emission {
        tracer,
        cell,
        amount,
    })
}
