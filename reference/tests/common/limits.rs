//! Document 02's limiters: a tracer's limiter and bounds as they stand in the ledger, and random ones.

use super::{cells, Random, BLOCK};
use reference::scheme::ratio;
use reference::{Limiter, World};

/// A tracer's limiter and bounds, whatever they are.
#[derive(Clone, Copy, Debug, PartialEq, Eq)]
pub struct Limits {
    pub limiter: u32,
    pub lo: u64,
    pub hi: u64,
}

/// "A load gives every tracer the first limiter, with both bounds 0".
pub const FIRST: Limits = Limits {
    limiter: 1,
    lo: 0,
    hi: 0,
};

pub fn limits(limiter: u32, lo: u64, hi: u64) -> Limits {
    Limits { limiter, lo, hi }
}

impl Limits {
    /// The five numbers of a block: limiter, lo's halves and hi's, the low one first.
    pub fn numbers(&self) -> [u32; 5] {
        let low = |number: u64| number as u32;
        let high = |number: u64| (number >> 32) as u32;
        let (lo, hi) = (self.lo, self.hi);
        [self.limiter, low(lo), high(lo), low(hi), high(hi)]
    }

    /// What the pieces take, where 21 lets it pass.
    pub fn limiter(&self) -> Limiter {
        Limiter::of_numbers(self.limiter, self.lo, self.hi).expect("a good limiter")
    }
}

/// What stands in the ledger.
pub fn limits_of(world: &World, tracer: usize) -> Limits {
    let numbers = &world.ledger[BLOCK * tracer + 51..BLOCK * tracer + 56];
    let whole = |i: usize| u64::from(numbers[i]) | u64::from(numbers[i + 1]) << 32;
    limits(numbers[0], whole(1), whole(3))
}

/// Puts them in the ledger, good or broken.
pub fn put_limits(world: &mut World, tracer: usize, limits: Limits) {
    let place = BLOCK * tracer + 51;
    world.ledger[place..place + 5].copy_from_slice(&limits.numbers());
}

/// The ratio of each cell of a tracer.
pub fn ratios(world: &World, tracer: usize) -> Vec<u64> {
    let first = tracer * cells(&world.grid);
    let amounts = world.air.iter().zip(&world.tracers[first..]);
    amounts
        .map(|(&m, &t)| ratio(m.into(), t.into()) as u64)
        .collect()
}

/// A bound: a ratio of the tracer or near one, or far from all.
fn random_bound(random: &mut Random, ratios: &[u64]) -> u64 {
    let some = ratios[random.next() as usize % ratios.len()];
    match random.next() % 8 {
        0 => 0,
        1 => u64::MAX,
        2 => random.next() << random.between(0, 16),
        3 => some + random.next() % 3,
        4 => some.saturating_sub(random.next() % 3),
        5 => some / (1 + random.next() % 4),
        6 => some + random.next() % (some + 1),
        _ => some,
    }
}

/// A limiter and bounds that 21 lets pass.
pub fn random_limits(random: &mut Random, world: &World, tracer: usize) -> Limits {
    let ratios = ratios(world, tracer);
    let (least, greatest) = (ratios.iter().min().unwrap(), ratios.iter().max().unwrap());
    let (one, other) = match random.next() % 5 {
        0 => (0, u64::MAX),
        1 => (*least, *greatest),
        2 => {
            let one = random_bound(random, &ratios);
            (one, one)
        }
        _ => (random_bound(random, &ratios), random_bound(random, &ratios)),
    };
    let limiter = [1, 2, 3, 3][random.next() as usize % 4];
    limits(limiter, one.min(other), one.max(other))
}

/// A random limiter for each tracer.
pub fn put_random_limits(random: &mut Random, world: &mut World) {
    for tracer in 0..world.grid.n as usize {
        let limits = random_limits(random, world, tracer);
        put_limits(world, tracer, limits);
    }
}
