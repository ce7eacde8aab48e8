//! Seeded limiters and bounds: round the ratios that occur, wide ones, both alike, near 2^32, 2^63 and 2^64, and broken ones; the calls
//! that set a limiter.

use crate::ledgers::{BLOCK, EMITTERS};
use crate::worlds::{in_range, index, Random};
use reference::{Call, World};

/// A limiter's numbers in a block of the ledger, after the emitters': its own, then lo and hi, each as its low and its high 32 bits.
pub const NUMBERS: usize = 5;
/// The first limiter, with both bounds 0.
pub const AFTER_LOAD: [u32; NUMBERS] = [1, 0, 0, 0, 0];
/// The limiters' numbers that are none.
const UNKNOWN: [u32; 6] = [0, 4, 5, 257, 65_538, u32::MAX];

/// What stands for a tracer.
#[derive(Clone, Copy, PartialEq, Eq)]
pub struct Limiter {
    pub number: u32,
    pub lo: u64,
    pub hi: u64,
}

impl Limiter {
    pub fn is_sound(&self) -> bool {
        (1..=3).contains(&self.number) && self.lo <= self.hi
    }

    fn numbers(&self) -> [u32; NUMBERS] {
        let Limiter { number, lo, hi } = *self;
        let half = |bound: u64, shift: u32| (bound >> shift) as u32;
        [number, half(lo, 0), half(lo, 32), half(hi, 0), half(hi, 32)]
    }
}

/// The limiter of each tracer whose block the ledger has.
pub fn standing(world: &World) -> impl Iterator<Item = Limiter> + '_ {
    let whole = |low: u32, high: u32| u64::from(low) + (u64::from(high) << 32);
    let blocks = world.ledger.chunks_exact(BLOCK);
    blocks.map(move |block| Limiter {
        number: block[EMITTERS],
        lo: whole(block[EMITTERS + 1], block[EMITTERS + 2]),
        hi: whole(block[EMITTERS + 3], block[EMITTERS + 4]),
    })
}

/// The world with each tracer's limiter changed, in their order.
pub fn changed(world: &World, change: impl FnMut(Limiter) -> Limiter) -> World {
    let limiters: Vec<Limiter> = standing(world).map(change).collect();
    let mut world = world.clone();
    for (block, limiter) in world.ledger.chunks_exact_mut(BLOCK).zip(limiters) {
        block[EMITTERS..][..NUMBERS].copy_from_slice(&limiter.numbers());
    }
    world
}

/// The world with the first limiter for every tracer.
pub fn with_first(world: &World) -> World {
    let [number, ..] = AFTER_LOAD;
    let (lo, hi) = (0, 0);
    changed(world, |_| Limiter { number, lo, hi })
}

/// The ratio of some cell of a tracer, or 0 where the world has none.
fn some_ratio(random: &mut Random, world: &World, tracer: usize) -> u64 {
    let cells = world.air.len().max(1);
    let cell = random.below(cells as u64) as usize;
    let air = world.air.get(cell).map_or(1, |&m| u64::from(m.max(1)));
    let place = tracer.saturating_mul(cells).saturating_add(cell);
    let gas = world.tracers.get(place);
    262_144 * gas.map_or(0, |&t| u64::from(t)) / air
}

/// Bounds that are no fault.
fn bounds(random: &mut Random, world: &World, tracer: usize) -> (u64, u64) {
    let [q, other] = [(); 2].map(|()| some_ratio(random, world, tracer));
    let (least, greatest) = (q.min(other), q.max(other));
    let near = random.below(4) + random.below(1 + q / 8);
    let high = [1 << 32, 1 << 62, 1 << 63, (1 << 63) + 10][random.below(4) as usize];
    match random.below(12) {
        0 => (0, 0),
        1 => (0, u64::MAX),
        2 | 3 => (least, greatest),
        4 | 5 => (q.saturating_sub(near), q + random.below(4) + near / 2),
        6 => (q, q),
        7 => (q.saturating_sub(near), u64::MAX - random.below(3)),
        8 => (0, q + near),
        9 => (least / 2, high + greatest),
        10 => (high + least / 2, u64::MAX),
        _ => (u64::MAX, u64::MAX),
    }
}

/// A limiter that is no fault.
fn sound(random: &mut Random, world: &World, tracer: usize) -> Limiter {
    let (lo, hi) = match random.below(4) {
        0 => (0, 0),
        _ => bounds(random, world, tracer),
    };
    let number = [1, 2, 2, 3, 3, 3][random.below(6) as usize];
    Limiter { number, lo, hi }
}

/// The limiter with another number, or with lo above hi, in either half.
fn broken(random: &mut Random, limiter: Limiter) -> Limiter {
    let Limiter { number, lo, hi } = limiter;
    match random.below(6) {
        0 | 1 => Limiter {
            number: UNKNOWN[random.below(6) as usize],
            ..limiter
        },
        2 if hi < u64::MAX => Limiter {
            lo: hi + 1,
            ..limiter
        },
        3 if lo > 0 => Limiter {
            hi: lo - 1,
            ..limiter
        },
        4 => Limiter {
            number,
            lo: 1 << 32,
            hi: u64::from(u32::MAX),
        },
        _ => Limiter {
            number,
            lo: u64::MAX,
            hi: u64::MAX - 1 - random.below(2),
        },
    }
}

/// Gives the world limiters: those of a load, or any, of which one in some worlds is broken, often the last.
pub fn lend(random: &mut Random, world: &mut World) {
    if !in_range(&world.grid) || random.one_in(6) {
        return;
    }
    let n = world.grid.n as usize;
    let mut limiters: Vec<Limiter> = (0..n).map(|t| sound(random, world, t)).collect();
    if random.one_in(4) {
        let tracer = [n - 1, random.below(n as u64) as usize][random.below(2) as usize];
        limiters[tracer] = broken(random, limiters[tracer]);
    }
    for (block, limiter) in world.ledger.chunks_exact_mut(BLOCK).zip(limiters) {
        block[EMITTERS..][..NUMBERS].copy_from_slice(&limiter.numbers());
    }
}

/// A limiter set for a tracer.
pub fn call(random: &mut Random, world: &World) -> Call {
    let tracer = index(random, world.grid.n.into());
    let mut limiter = sound(random, world, tracer as usize);
    if random.one_in(5) {
        limiter = broken(random, limiter);
    }
    let Limiter { number, lo, hi } = limiter;
    Call::SetLimiter {
        tracer,
        limiter: number,
        lo,
        hi,
    }
}
