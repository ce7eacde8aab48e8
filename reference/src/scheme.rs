//! "Ratio, mismatch, piece", and the parts of a flux.
//! The functions are for air of at least 1 and amounts of a checked world.

use crate::limiter::Limiter;

/// "262,144 wherever document 01 has 65,536 as the scale of the ratio, the mismatch and the
/// piece" (document 02). Where document 01 is quoted below, it has 65,536 for it.
pub const SCALE: i64 = 262_144;

/// floor(number / divisor) for a positive divisor.
fn floor_division(number: i128, divisor: i128) -> i128 {
    let quotient = number / divisor;
    if number < quotient * divisor {
        quotient - 1
    } else {
        quotient
    }
}

/// "Ratio: q = floor(65,536·T / M)." With the new scale floor(262,144·T / M).
pub fn ratio(air: i64, tracer: i64) -> i64 {
    (SCALE * tracer).div_euclid(air)
}

/// "Mismatch D of a cell with a neighbour on its low side (qa) and on its high side (qb):
/// size = the smallest of |qb − qa|/2 rounded down, 2(q − least of the three),
/// 2(greatest of the three − q); sign = that of qb − qa." What stands beside |qb − qa|/2 is for
/// the first limiter; the others have their own (limiter.rs). "The same sign rule is used". It is
/// in the ratios' scale.
pub fn mismatch(limiter: &Limiter, qa: i64, q: i64, qb: i64) -> i64 {
    let half = (qb - qa).abs() / 2;
    let size = i128::from(half).min(limiter.bound(qa, q, qb));
    let size = i64::try_from(size).expect("a size is at most half a difference of ratios");
    size * (qb - qa).signum()
}

/// "Piece of m units of air (0 to M) from the high end:
/// floor((2·65,536·m·T + D·m·(M − m)) / (2·65,536·M))." With the new scale
/// floor((2·262,144·m·T + D·m·(M − m)) / (2·262,144·M)).
pub fn piece_from_high_end(air: i64, tracer: i64, mismatch: i64, m: i64) -> i64 {
    let scale = i128::from(SCALE);
    let (air, tracer) = (i128::from(air), i128::from(tracer));
    let (mismatch, m) = (i128::from(mismatch), i128::from(m));
    let piece = floor_division(
        2 * scale * m * tracer + mismatch * m * (air - m),
        2 * scale * air,
    );
    i64::try_from(piece).expect("a piece is at most the tracer of its cell")
}

/// "From the low end: the same with − D."
pub fn piece_from_low_end(air: i64, tracer: i64, mismatch: i64, m: i64) -> i64 {
    piece_from_high_end(air, tracer, -mismatch, m)
}

/// "For a count n, part s (1 to n) of a flux F has size
/// floor(s·|F|/n) − floor((s − 1)·|F|/n) and F's sign."
pub fn part(flux: i64, s: i64, n: i64) -> i64 {
    let size = s * flux.abs() / n - (s - 1) * flux.abs() / n;
    size * flux.signum()
}

/// Part s of n of each flux.
pub fn parts(fluxes: &[i64], s: i64, n: i64) -> Vec<i64> {
    fluxes.iter().map(|&flux| part(flux, s, n)).collect()
}
