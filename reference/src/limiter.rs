//! "A limiter for each gas": document 02's three limiters, their place in the ledger and the call
//! that sets them. "Offer three, numbered 1 to 3 and chosen for each tracer."

use crate::emitters;
use crate::grid::{Grid, World};
use crate::{ledger, refusal};

/// Where a block's limiter stands: after the emitters. Then come lo and hi, each as its low and
/// its high 32 bits.
const PLACE: usize = emitters::NUMBERS;
/// A limiter's numbers in the ledger.
pub(crate) const NUMBERS: usize = 5;
/// "A load gives every tracer the first limiter, with both bounds 0".
pub(crate) const AFTER_LOAD: [u32; NUMBERS] = [1, 0, 0, 0, 0];

/// A limiter that refusal 21 lets pass, with what it reads.
#[derive(Clone, Copy, Debug, PartialEq, Eq)]
pub enum Limiter {
    /// "First, the present one."
    Present,
    /// "Second, the positive one".
    Positive,
    /// "Third, the fixed one with lent bounds lo and hi as ratios"; "lo and hi are unsigned
    /// 64-bit, in the ratio's scale."
    Fixed { lo: u64, hi: u64 },
}

impl Limiter {
    /// "21 when a tracer's limiter is unknown or its lo exceeds its hi": also for a limiter that
    /// reads no bounds.
    pub fn of_numbers(limiter: u32, lo: u64, hi: u64) -> Result<Limiter, u32> {
        if lo > hi {
            return Err(refusal::LIMITER);
        }
        match limiter {
            1 => Ok(Limiter::Present),
            2 => Ok(Limiter::Positive),
            3 => Ok(Limiter::Fixed { lo, hi }),
            _ => Err(refusal::LIMITER),
        }
    }

    /// What bounds the size of a cell's mismatch beside |qb − qa|/2, from its own ratio and those
    /// of its neighbours. "First, the present one": "2(q − least of the three), 2(greatest of the
    /// three − q)". "Second, the positive one": "2q". "Third, the fixed one [...]: the present
    /// rule with lo and hi for least and greatest, and D = 0 where q is outside them."
    pub(crate) fn bound(&self, qa: i64, q: i64, qb: i64) -> i128 {
        let between = |least: i128, greatest: i128, q: i128| {
            if q < least || q > greatest {
                0
            } else {
                (2 * (q - least)).min(2 * (greatest - q))
            }
        };
        let [qa, q, qb] = [qa, q, qb].map(i128::from);
        match *self {
            Limiter::Present => between(qa.min(q).min(qb), qa.max(q).max(qb), q),
            Limiter::Positive => 2 * q,
            Limiter::Fixed { lo, hi } => between(i128::from(lo), i128::from(hi), q),
        }
    }
}

/// 64 bits out of their low and their high half.
fn whole(low: u32, high: u32) -> u64 {
    u64::from(low) + (u64::from(high) << 32)
}

/// The low and the high half of 64 bits.
fn halves(number: u64) -> [u32; 2] {
    [(number % (1 << 32)) as u32, (number >> 32) as u32]
}

/// The limiter in a block.
fn standing(block: &[u32]) -> Result<Limiter, u32> {
    let [limiter, lo_low, lo_high, hi_low, hi_high] = [0, 1, 2, 3, 4].map(|i| block[PLACE + i]);
    Limiter::of_numbers(limiter, whole(lo_low, lo_high), whole(hi_low, hi_high))
}

/// The limiter of each tracer: "21 when a tracer's limiter is unknown or its lo exceeds its hi,
/// after 4 in calls that move air and in Slip 5's count call".
pub(crate) fn of_tracers(world: &World) -> Result<Vec<Limiter>, u32> {
    ledger::blocks(world).map(standing).collect()
}

/// "a new call sets one tracer's limiter and bounds." 21 "after 5, for the given ones only, in the
/// setting call": what stands is not tested. What is given is stored as it is.
pub(crate) fn set(
    world: &mut World,
    tracer: u32,
    limiter: u32,
    lo: u64,
    hi: u64,
) -> Result<u64, u32> {
    let tracer = Grid::present(tracer, world.grid.n as usize)?;
    Limiter::of_numbers(limiter, lo, hi)?;
    let ([lo_low, lo_high], [hi_low, hi_high]) = (halves(lo), halves(hi));
    let numbers = [limiter, lo_low, lo_high, hi_low, hi_high];
    ledger::block_mut(world, tracer)[PLACE..PLACE + NUMBERS].copy_from_slice(&numbers);
    Ok(0)
}
