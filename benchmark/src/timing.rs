//! Timing: the versions take turns on the same calls from the same world in the same memory, and every result is compared.

use crate::versions::{Version, COUNT, VERSIONS};
use reference::{Answer, Call, World};
use std::hint::black_box;

/// Calls made one after the other, from a world.
pub struct Work {
    pub start: World,
    pub calls: Vec<Call>,
}

/// The seconds of each version, a row for each round.
pub type Rounds = Vec<[f64; COUNT]>;

/// What is left after a work: the answers and the world.
#[derive(PartialEq)]
pub struct Left {
    pub answers: Vec<Answer>,
    pub world: World,
}

fn restore(world: &mut World, start: &World) {
    world.grid = start.grid;
    world.air.clone_from(&start.air);
    world.tracers.clone_from(&start.tracers);
    world.ledger.clone_from(&start.ledger);
}

/// A time of the C library: seconds and billionths.
#[repr(C)]
struct Moment {
    seconds: i64,
    billionths: i64,
}

extern "C" {
    fn clock_gettime(clock: i32, moment: *mut Moment) -> i32;
}

/// Linux's number of the clock that runs only while this thread does, so that other programs' turns are not counted.
const THREAD_CLOCK: i32 = 3;

/// This thread's seconds so far.
pub fn now() -> f64 {
    let mut moment = Moment {
        seconds: 0,
        billionths: 0,
    };
    // SAFETY: `Moment` has the layout of a 64-bit Linux's timespec, and is this function's own.
    let failed = unsafe { clock_gettime(THREAD_CLOCK, &mut moment) };
    assert!(failed == 0, "this thread's clock cannot be read");
    moment.seconds as f64 + moment.billionths as f64 * 1e-9
}

/// Clears the upper halves of the vector registers. A version that leaves them in use, as gcc 12 does with -march=native where a
/// static function is called last, would make the 128-bit code of the version after it two to three times as slow.
fn clear_upper_halves() {
    #[cfg(target_arch = "x86_64")]
    if std::arch::is_x86_feature_detected!("avx") {
        // SAFETY: the processor has the instruction, and a caller keeps nothing in these halves over a call.
        unsafe { zero_upper() }
    }
}

#[cfg(target_arch = "x86_64")]
#[target_feature(enable = "avx")]
unsafe fn zero_upper() {
    std::arch::x86_64::_mm256_zeroupper()
}

/// Seconds of the calls as a version makes them; the world stands at the work's start before and is left as the calls leave it.
pub fn time(version: &Version, round: usize, work: &Work, left: &mut Left) -> f64 {
    let make = version.call(round);
    restore(&mut left.world, &work.start);
    version.lend(&mut left.world);
    left.answers.clear();
    left.answers.reserve(work.calls.len());
    clear_upper_halves();
    let begin = now();
    for call in &work.calls {
        left.answers
            .push(make(black_box(&mut left.world), black_box(call)));
    }
    let seconds = now() - begin;
    version.take_back(&mut left.world);
    seconds
}

pub fn nothing_left(start: &World) -> Left {
    Left {
        answers: Vec::new(),
        world: start.clone(),
    }
}

/// Makes every call by every version that has it and compares answer, count and every number after each.
pub fn agree(work: &Work) {
    let mut worlds: [World; COUNT] = std::array::from_fn(|_| work.start.clone());
    for (number, call) in work.calls.iter().enumerate() {
        let answers: [Option<Answer>; COUNT] = std::array::from_fn(|v| {
            let (version, world) = (&VERSIONS[v], &mut worlds[v]);
            let made = version.has(call) && version.takes(world);
            made.then(|| version.make(number, world, call))
        });
        let (first, others) = worlds.split_first_mut().expect("the library is first");
        for ((version, world), answer) in VERSIONS[1..].iter().zip(others).zip(&answers[1..]) {
            if answer.is_none() {
                world.clone_from(first);
            }
            version.take_over(world, first);
            let same = answer.is_none_or(|answer| Some(answer) == answers[0]) && *world == *first;
            assert!(
                same,
                "{} differs from the library at call {number}: {call:?}",
                version.name
            );
        }
    }
}

/// Does the work with the stack `steps` small frames deeper, since a version's speed depends a little on where its arrays lie.
#[inline(never)]
fn deeper(steps: usize, work: &mut dyn FnMut() -> f64) -> f64 {
    let frame = black_box([0u8; 96]);
    let seconds = if steps == 0 {
        work()
    } else {
        deeper(steps - 1, work)
    };
    black_box(&frame);
    seconds
}

/// One round: each version once, the first one another in each round, code and stack at other places. A version that has not
/// all the calls has no time.
pub fn round(
    number: usize,
    work: &Work,
    left: &mut Left,
    first: &mut Option<Left>,
) -> [f64; COUNT] {
    let mut seconds = [0.0; COUNT];
    for turn in 0..COUNT {
        let v = (number + turn) % COUNT;
        let has = |call| VERSIONS[v].has(call);
        if !VERSIONS[v].takes(&work.start) || !work.calls.iter().all(has) {
            seconds[v] = f64::NAN;
            continue;
        }
        let place = number + number / COUNT;
        let mut timed = || time(&VERSIONS[v], place, work, left);
        seconds[v] = deeper(number * 7 % 32, &mut timed);
        match first {
            Some(first) => {
                VERSIONS[v].take_over(&mut left.world, &first.world);
                assert!(
                    *left == *first,
                    "{} differs from the others",
                    VERSIONS[v].name
                )
            }
            // What a version leaves that is not compared whole is not what the others are held to.
            None if !VERSIONS[v].is_compared_whole() => {}
            None => {
                *first = Some(Left {
                    answers: left.answers.clone(),
                    world: left.world.clone(),
                })
            }
        }
    }
    seconds
}

/// All rounds of a work, after the versions were compared call by call.
pub fn rounds(work: &Work, count: usize) -> Rounds {
    agree(work);
    let (mut left, mut first) = (nothing_left(&work.start), None);
    round(0, work, &mut left, &mut first);
    let accepted = left.answers.iter().all(|answer| answer.number == 0);
    assert!(accepted, "a timed call is refused: {:?}", left.answers);
    (0..count)
        .map(|number| round(number, work, &mut left, &mut first))
        .collect()
}

/// The median, and the 10th and the 90th of a hundred.
#[derive(Clone, Copy)]
pub struct Spread {
    pub median: f64,
    pub low: f64,
    pub high: f64,
}

pub fn spread(mut numbers: Vec<f64>) -> Spread {
    numbers.sort_by(f64::total_cmp);
    let at = |hundredth: usize| numbers[(numbers.len() - 1) * hundredth / 100];
    Spread {
        median: at(50),
        low: at(10),
        high: at(90),
    }
}

impl std::fmt::Display for Spread {
    fn fmt(&self, f: &mut std::fmt::Formatter) -> std::fmt::Result {
        if self.median.is_nan() {
            return write!(f, "–");
        }
        write!(f, "{:.2} ({:.2}..{:.2})", self.median, self.low, self.high)
    }
}

/// The library's time as a part of another version's, round by round.
pub fn ratio_to(rounds: &Rounds, version: usize) -> Spread {
    spread(
        rounds
            .iter()
            .map(|seconds| seconds[0] / seconds[version])
            .collect(),
    )
}
