//! What the accepted calls that move air met of thin gases and of cells with nearly all of a tracer's units (gases.rs).

use crate::situations;
use crate::worlds::MOST;
use reference::{Answer, Call, World};

/// The kinds of calls that move air.
const MOVERS: usize = 4;

const NAMES: [&str; 8] = [
    "thin gas moved by a zonal sweep",
    "thin gas moved by a long sweep",
    "thin gas moved by a meridional sweep",
    "thin gas moved by a remap",
    "packed cell in a zonal sweep",
    "packed cell in a long sweep",
    "packed cell in a meridional sweep",
    "packed cell in a remap",
];

#[derive(Default)]
pub struct Situations {
    met: [u64; NAMES.len()],
}

/// Which of these kinds a call is.
fn mover(call: &Call) -> Option<usize> {
    match call {
        Call::Zonal { .. } | Call::ZonalWithCount { .. } => Some(0),
        Call::LongZonal { .. } => Some(1),
        Call::Meridional { .. } => Some(2),
        Call::Remap { .. } => Some(3),
        _ => None,
    }
}

/// Some gas, at most four units in a thousand of much air in every cell.
fn is_thin(air: &[u32], gas: &[u32]) -> bool {
    let thin = |(t, m): (&u32, &u32)| *m >= 5_000 && u64::from(*t) * 1_000 <= u64::from(*m) * 4;
    gas.iter().any(|&t| t > 0) && gas.iter().zip(air).all(thin)
}

/// A cell gives some of nearly all units, from nearly the most air.
fn gives_packed(air: &[u32], gas: &[u32], left: &[u32]) -> bool {
    let packed = |c: usize| air[c] >= 65_000 && u64::from(gas[c]) >= MOST - MOST / 100;
    (0..gas.len()).any(|c| packed(c) && left[c] < gas[c])
}

impl Situations {
    /// Counts a call with its answer.
    pub fn add(&mut self, before: &World, call: &Call, after: &World, answer: Answer) {
        let (Some(mover), true) = (mover(call), answer.number == 0) else {
            return;
        };
        let cells = before.air.len();
        let gases = || (before.tracers.chunks_exact(cells)).zip(after.tracers.chunks_exact(cells));
        let mut met = [false; NAMES.len()];
        met[mover] = gases().any(|(gas, left)| gas != left && is_thin(&before.air, gas));
        met[MOVERS + mover] = gases().any(|(gas, left)| gives_packed(&before.air, gas, left));
        situations::add(&mut self.met, &met);
    }

    pub fn print(&self) {
        situations::print("thin gases and packed cells", &NAMES, &self.met);
    }

    /// The situations that were not met.
    pub fn missing(&self) -> Vec<String> {
        situations::missing("thin gas or packed cell", &NAMES, &self.met)
    }
}
