//! The wave as three gases of one world, each with its limiter.

use crate::plain::{self, Mismatch};
use crate::wave::{self, Wave, COURANT, FULL, STEPS, UNIT};
use puldeho::{Limiter, Refusal, SCALE};

/// Source 001's (6): 0, and the ratio of the wave.
const FIXED: Limiter = Limiter::Fixed {
    lo: 0,
    hi: UNIT as u64 * SCALE as u64,
};
/// The limiters in the order of their numbers, with source 001's constraint and its mismatch in floating point.
const LIMITERS: [(Limiter, &str, Mismatch); 3] = [
    (Limiter::Present, "(5)", plain::monotonic),
    (Limiter::Positive, "(3b)", plain::positive),
    (FIXED, "(6)", plain::fixed),
];
/// A wave that touches neither bound, so that they hold nothing back at its edges.
const LOWER: Wave = (UNIT / 10, UNIT / 2);

/// What a limiter leaves of the wave.
pub struct Gas {
    pub number: u32,
    pub constraint: &'static str,
    pub wave: wave::Run,
    /// What the constraint leaves in floating point.
    pub floating: Vec<f64>,
}

pub struct Run {
    pub gases: Vec<Gas>,
    /// The lower wave with the third limiter and the same bounds.
    pub lower: wave::Run,
}

fn gases() -> Result<Vec<Gas>, Refusal> {
    let mut world = wave::start(&[FULL; LIMITERS.len()])?;
    for (gas, (limiter, ..)) in (0..).zip(LIMITERS) {
        world.set_limiter(gas, limiter)?;
    }
    let waves = wave::carried(world, "the wave with three limiters")?;
    let gas = |(wave, (limiter, constraint, mismatch)): (wave::Run, (Limiter, _, _))| Gas {
        number: limiter.numbers().0,
        constraint,
        floating: plain::carried(&wave.before, COURANT, STEPS, mismatch),
        wave,
    };
    Ok(waves.into_iter().zip(LIMITERS).map(gas).collect())
}

fn lower() -> Result<wave::Run, Refusal> {
    let mut world = wave::start(&[LOWER])?;
    world.set_limiter(0, FIXED)?;
    wave::carried(world, "a lower wave").map(|mut waves| waves.remove(0))
}

pub fn run() -> Result<Run, Refusal> {
    Ok(Run {
        gases: gases()?,
        lower: lower()?,
    })
}

/// What pictures/README.md says of the limiters.
#[cfg(test)]
mod tests {
    use super::*;

    #[test]
    fn the_first_gas_is_the_wave_alone() {
        let run = run().unwrap();
        assert_eq!(run.gases[0].wave.after, wave::run().unwrap().after);
    }

    #[test]
    fn whole_numbers_leave_what_the_constraints_leave() {
        for gas in run().unwrap().gases {
            assert!(plain::difference(&gas.wave.after, &gas.floating) < 1e-6);
        }
    }

    #[test]
    fn only_the_second_overshoots() {
        let run = run().unwrap();
        let over = (run.gases.iter()).map(|gas| gas.wave.record.greatest > 1.0);
        assert_eq!(over.collect::<Vec<_>>(), [false, true, false]);
    }

    #[test]
    fn only_the_first_makes_no_new_highs() {
        let run = run().unwrap();
        let rises = (run.gases.iter()).map(|gas| gas.wave.record.rises > 0);
        assert_eq!(rises.collect::<Vec<_>>(), [false, true, true]);
        let (outside, record) = (run.lower.before[0], &run.lower.record);
        assert!(record.least < outside && record.greatest > record.peak_before);
    }

    #[test]
    fn the_third_is_best_by_peak_and_worst_cell_and_the_second_by_all_cells() {
        let run = run().unwrap();
        let [first, second, third] = [0, 1, 2].map(|n| &run.gases[n].wave);
        let off = |wave: &wave::Run| (wave.record.peak_after - 1.0).abs();
        let worst = |wave: &wave::Run| plain::difference(&wave.before, &wave.after);
        for error in [off, worst] {
            assert!(error(third) < error(second) && error(second) < error(first));
        }
        for error in [plain::misplaced, plain::root_mean_square] {
            let error = |wave: &wave::Run| error(&wave.before, &wave.after);
            assert!(error(second) < error(third) && error(third) < error(first));
        }
    }
}
