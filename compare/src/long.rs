//! What the long sweeps of the comparison met: each end of their fluxes, their refusals alone and together.

use crate::situations;
use reference::{Call, World};

const NAMES: [&str; 11] = [
    "no flux",
    "a whole turn east",
    "a whole turn west",
    "nearly a turn east",
    "nearly a turn west",
    "a cell left with 1",
    "a cell left with 65,535",
    "16 alone",
    "16 where 17 applies too",
    "17, a cell left with 0",
    "17, a cell left with 65,536",
];

#[derive(Default)]
pub struct Situations {
    met: [u64; NAMES.len()],
}

/// A row's air before a long sweep, and after it by the fluxes.
fn row_and_after(world: &World, layer: u32, row: u32, fluxes: &[i32]) -> (Vec<i64>, Vec<i64>) {
    let w = world.grid.w as usize;
    let first = layer as usize * (2 + world.grid.r as usize * w) + 1 + row as usize * w;
    let air: Vec<i64> = world.air[first..first + w]
        .iter()
        .map(|&m| m.into())
        .collect();
    let flux = |i: usize| i64::from(fluxes[i % w]);
    let after = (0..w).map(|i| air[i] + flux(i + w - 1) - flux(i)).collect();
    (air, after)
}

impl Situations {
    /// Counts a call with its answer.
    pub fn add(&mut self, before: &World, call: &Call, after: &World, number: u32) {
        let Call::LongZonal { layer, row, fluxes } = call else {
            return;
        };
        if ![0, 16, 17].contains(&number) {
            return;
        }
        assert!(number == 0 || before == after);
        let (air, ends) = row_and_after(before, *layer, *row, fluxes);
        let turn: i64 = air.iter().sum();
        let within = |low: i64, high: i64| fluxes.iter().all(|&f| (low..=high).contains(&f.into()));
        let ends_at = |air: i64| ends.contains(&air);
        let inside = ends.iter().all(|end| (1..=65_535).contains(end));
        let met = [
            number == 0 && within(0, 0),
            number == 0 && within(turn, turn),
            number == 0 && within(-turn, -turn),
            number == 0 && within(turn - air[0], turn - 1),
            number == 0 && within(1 - turn, air[0] - turn),
            number == 0 && ends_at(1),
            number == 0 && ends_at(65_535),
            number == 16 && inside,
            number == 16 && !inside,
            number == 17 && ends_at(0),
            number == 17 && ends_at(65_536),
        ];
        situations::add(&mut self.met, &met);
    }

    pub fn print(&self) {
        situations::print("long sweeps", &NAMES, &self.met);
    }

    /// The situations that were not met.
    pub fn missing(&self) -> Vec<String> {
        situations::missing("long sweep", &NAMES, &self.met)
    }
}
