//! What the counts before a sweep and the sweeps with a given count met; and beside every zonal sweep the two presses in the library,
//! which must leave and give what the single sweep does.

use crate::{library_call, situations};
use reference::{Answer, Call, World};

/// The situations: of a count before a sweep, of a sweep with the right count, and of refused ones.
const COUNTED: usize = 0;
const RIGHT_1: usize = 1;
const RIGHT_2_TO_15: usize = 2;
const RIGHT_16: usize = 3;
const ONE_LESS: usize = 4;
const ONE_MORE: usize = 5;
const NONE: usize = 6;
const ABOVE_16: usize = 7;
const SERVES_TOO: usize = 8;
const NO_COUNT: usize = 9;

const NAMES: [&str; 10] = [
    "counted, and the world as it was",
    "the right count, 1",
    "the right count, 2 to 15",
    "the right count, 16",
    "20, one less",
    "20, one more",
    "20, a count of 0",
    "20, a count above 16",
    "20, a larger count that serves too",
    "9 where 20 applies too",
];

#[derive(Default)]
pub struct Situations {
    met: [u64; NAMES.len()],
}

/// Whether so many substeps of a row are allowed, one after another, in the air alone.
fn serves(air: &[i64], fluxes: &[i32], count: i64) -> bool {
    let w = air.len();
    let part = |flux: i32, s: i64| {
        let size = i64::from(flux).abs();
        let part = s * size / count - (s - 1) * size / count;
        part * i64::from(flux.signum())
    };
    let mut now = air.to_vec();
    (1..=count).all(|s| {
        let east = |i: usize| part(fluxes[i], s);
        let outflow = |i: usize| east(i).max(0) + (-east((i + w - 1) % w)).max(0);
        let allowed = (0..w).all(|i| outflow(i) <= now[i]);
        now = (0..w)
            .map(|i| now[i] + east((i + w - 1) % w) - east(i))
            .collect();
        allowed && now.iter().all(|m| (1..=65_535).contains(m))
    })
}

/// The air of a row that the world has.
fn row_air(world: &World, layer: u32, row: u32) -> Vec<i64> {
    let w = world.grid.w as usize;
    let first = layer as usize * (2 + world.grid.r as usize * w) + 1 + row as usize * w;
    world.air[first..first + w]
        .iter()
        .map(|&m| m.into())
        .collect()
}

/// Both presses in the library leave and give what the single sweep left and gave.
fn two_presses(
    before: &World,
    layer: u32,
    row: u32,
    fluxes: &[i32],
    after: &World,
    single: Answer,
) {
    let mut world = before.clone();
    let fluxes = fluxes.to_vec();
    let first = library_call(
        &mut world,
        &Call::CountZonal {
            layer,
            row,
            fluxes: fluxes.clone(),
        },
    );
    assert_eq!((first, &world), (single, before), "the first press");
    let given = first.count as u32;
    let second = library_call(
        &mut world,
        &Call::ZonalWithCount {
            layer,
            row,
            given,
            fluxes,
        },
    );
    assert_eq!((second, &world), (single, after), "the second press");
}

impl Situations {
    /// Counts a call with its answer.
    pub fn add(&mut self, before: &World, call: &Call, after: &World, answer: Answer) {
        let mut met = [false; NAMES.len()];
        match call {
            Call::Zonal { layer, row, fluxes } => {
                two_presses(before, *layer, *row, fluxes, after, answer);
            }
            Call::CountZonal { .. } => met[COUNTED] = answer.number == 0 && before == after,
            Call::ZonalWithCount {
                layer,
                row,
                given,
                fluxes,
            } => match answer.number {
                0 => met[right(answer.count)] = true,
                // No count serves, so that any given one differs from it.
                9 => met[NO_COUNT] = true,
                20 => other(&row_air(before, *layer, *row), fluxes, *given, &mut met),
                _ => {}
            },
            _ => {}
        }
        situations::add(&mut self.met, &met);
    }

    pub fn print(&self) {
        situations::print("the two presses", &NAMES, &self.met);
    }

    /// The situations that were not met.
    pub fn missing(&self) -> Vec<String> {
        situations::missing("press", &NAMES, &self.met)
    }
}

fn right(count: u64) -> usize {
    match count {
        1 => RIGHT_1,
        16 => RIGHT_16,
        _ => RIGHT_2_TO_15,
    }
}

/// What a given count is that is not the smallest.
fn other(air: &[i64], fluxes: &[i32], given: u32, met: &mut [bool; NAMES.len()]) {
    let given = i64::from(given);
    let right = (1..=16)
        .find(|&count| serves(air, fluxes, count))
        .expect("20 comes after 9");
    met[ONE_LESS] = given + 1 == right;
    met[ONE_MORE] = given == right + 1;
    met[NONE] = given == 0;
    met[ABOVE_16] = given > 16;
    met[SERVES_TOO] = (right + 1..=16).contains(&given) && serves(air, fluxes, given);
}
