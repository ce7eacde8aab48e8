//! What the accepted remaps of the comparison met: columns with each number of pairs. Their count is also found from the air before and
//! after alone: for each column 2K - 1 less the inner edges in common.

use crate::situations;
use reference::{Answer, Call, World};
use std::collections::BTreeSet;

const NAMES: [&str; 8] = [
    "one layer",
    "all columns with K pairs",
    "all columns with 2K - 1 pairs",
    "a column between the two",
    "columns that differ",
    "a cap's column unlike all others",
    "the last column unlike another",
    "several tracers",
];

#[derive(Default)]
pub struct Situations {
    met: [u64; NAMES.len()],
}

/// The places of a column's inner edges.
fn inner_edges(world: &World, place: usize) -> BTreeSet<u64> {
    let c = 2 + (world.grid.r * world.grid.w) as usize;
    let layers = world.air[place..].iter().step_by(c);
    let ends = layers.scan(0, |sum, &air| {
        *sum += u64::from(air);
        Some(*sum)
    });
    ends.take(world.grid.k as usize - 1).collect()
}

/// The pairs of each column, by the inner edges before and after.
fn pairs(before: &World, after: &World) -> Vec<u64> {
    let most = 2 * u64::from(before.grid.k) - 1;
    let common = |c| {
        inner_edges(before, c)
            .intersection(&inner_edges(after, c))
            .count() as u64
    };
    (0..2 + (before.grid.r * before.grid.w) as usize)
        .map(|c| most - common(c))
        .collect()
}

impl Situations {
    /// Counts a call with its answer.
    pub fn add(&mut self, before: &World, call: &Call, after: &World, answer: Answer) {
        if !matches!(call, Call::Remap { .. }) || answer.number != 0 {
            return;
        }
        let k = u64::from(before.grid.k);
        let pairs = pairs(before, after);
        assert_eq!(
            answer.count,
            pairs.iter().sum::<u64>(),
            "the closed form of the count"
        );
        let last = pairs.len() - 1;
        let unlike_others = |c: usize| (0..=last).all(|d| d == c || pairs[d] != pairs[c]);
        let met = [
            k == 1,
            k > 1 && pairs.iter().all(|&n| n == k),
            k > 1 && pairs.iter().all(|&n| n == 2 * k - 1),
            pairs.iter().any(|&n| k < n && n < 2 * k - 1),
            pairs.iter().any(|&n| n != pairs[0]),
            unlike_others(0) || unlike_others(last),
            pairs.iter().any(|&n| n != pairs[last]),
            before.grid.n > 1,
        ];
        situations::add(&mut self.met, &met);
    }

    pub fn print(&self) {
        situations::print("accepted remaps", &NAMES, &self.met);
    }

    /// The situations that were not met.
    pub fn missing(&self) -> Vec<String> {
        situations::missing("accepted remap", &NAMES, &self.met)
    }
}
