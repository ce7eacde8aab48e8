//! A day on the full grid: every row of every layer, every layer, one remap. The versions take turns layer by layer.

use crate::inputs;
use crate::timing::{agree, nothing_left, round, spread, Left, Rounds, Spread, Work};
use crate::works::FULL;
use crate::worlds::Random;
use reference::{Answer, Call, World};

/// A layer's calls, or the remap: what it starts from, its times, and those of as many loads.
struct Part {
    work: Work,
    loads: Work,
    calls: Rounds,
    tests: Rounds,
}

pub struct Day {
    parts: Vec<Part>,
    pub calls: usize,
    pub substeps: [usize; 17],
}

/// What is measured of a day: all of it, its tests (as many loads as calls), or the rest.
#[derive(Clone, Copy)]
pub enum Measure {
    Whole,
    Tests,
    Rest,
}

/// The calls of each layer, then the remap.
fn calls_of_parts(random: &mut Random, start: &World) -> Vec<Vec<Call>> {
    let mut parts: Vec<Vec<Call>> = (0..start.grid.k)
        .map(|k| inputs::layer_of_day(random, start, k))
        .collect();
    parts.push(vec![inputs::table(random, start.grid.k)]);
    parts
}

/// A day under one limiter whose versions were compared after every call.
fn compared(limiter: u32) -> Day {
    let mut random = Random::new(11);
    let mut world = inputs::world(&mut random, FULL);
    if limiter != 1 {
        world = inputs::limited(&world, limiter);
    }
    let mut day = Day {
        parts: Vec::new(),
        calls: 0,
        substeps: [0; 17],
    };
    for calls in calls_of_parts(&mut random, &world) {
        let work = Work {
            start: world.clone(),
            calls,
        };
        agree(&work);
        let mut left = nothing_left(&world);
        round(0, &work, &mut left, &mut None);
        day.calls += work.calls.len();
        count_substeps(&mut day.substeps, &work.calls, &left.answers);
        world = left.world;
        let loads = Work {
            start: world.clone(),
            calls: vec![Call::Load; work.calls.len()],
        };
        day.parts.push(Part {
            work,
            loads,
            calls: Vec::new(),
            tests: Vec::new(),
        });
    }
    day
}

fn count_substeps(substeps: &mut [usize; 17], calls: &[Call], answers: &[Answer]) {
    for (call, answer) in calls.iter().zip(answers) {
        assert!(
            answer.number == 0,
            "a call of the day is refused with {}: {call:?}",
            answer.number
        );
        if matches!(call, Call::Zonal { .. }) {
            substeps[answer.count as usize] += 1;
        }
    }
}

impl Part {
    /// Each version once on the part's calls, and once on the loads.
    fn round(&mut self, number: usize, left: &mut Left) {
        self.calls.push(round(number, &self.work, left, &mut None));
        self.tests.push(round(number, &self.loads, left, &mut None));
    }

    /// Seconds of a version, from what `of` takes of its times in all rounds.
    fn seconds(
        &self,
        measure: Measure,
        version: usize,
        of: &impl Fn(&Rounds, usize) -> f64,
    ) -> f64 {
        match measure {
            Measure::Whole => of(&self.calls, version),
            Measure::Tests => of(&self.tests, version),
            Measure::Rest => of(&self.calls, version) - of(&self.tests, version),
        }
    }
}

/// The versions take turns on every part of `count` days, all tracers under one limiter.
pub fn run(limiter: u32, count: usize, progress: impl Fn(usize)) -> Day {
    progress(0);
    let mut day = compared(limiter);
    let mut left = nothing_left(&day.parts[0].work.start);
    for number in 0..count {
        progress(number + 1);
        for part in &mut day.parts {
            part.round(number, &mut left);
        }
    }
    day
}

/// The median of a version's times.
fn median(rounds: &Rounds, version: usize) -> f64 {
    spread(rounds.iter().map(|seconds| seconds[version]).collect()).median
}

impl Day {
    fn seconds(&self, measure: Measure, version: usize, of: impl Fn(&Rounds, usize) -> f64) -> f64 {
        self.parts
            .iter()
            .map(|part| part.seconds(measure, version, &of))
            .sum()
    }

    /// The median of each part's times, summed over the parts.
    pub fn median(&self, measure: Measure, version: usize) -> f64 {
        self.seconds(measure, version, median)
    }

    /// The library's time as a part of a version's: from the medians, with the spread of the single days.
    pub fn ratio(&self, measure: Measure, version: usize) -> Spread {
        let days = self.parts[0].calls.len();
        let of_day = |day: usize, v| self.seconds(measure, v, |rounds: &Rounds, v| rounds[day][v]);
        let days = (0..days).map(|day| of_day(day, 0) / of_day(day, version));
        let median = self.median(measure, 0) / self.median(measure, version);
        Spread {
            median,
            ..spread(days.collect())
        }
    }

    /// The share of the whole-world tests in a version's day.
    pub fn share(&self, version: usize) -> f64 {
        self.median(Measure::Tests, version) / self.median(Measure::Whole, version)
    }
}
