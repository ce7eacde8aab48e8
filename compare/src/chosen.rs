//! What the calls met of limiters: which of their numbers an accepted call's amounts show, 21 for each of its reasons and beside other
//! refusals, and what the setting call and the load left. Beside every accepted call that moves air in a small world the same call is
//! compared where all gases are the first one, so that they differ by their limiters alone.

use crate::limiters::{changed, standing, with_first, Limiter};
use crate::{books, both, library, report};
use reference::{Answer, Call, World};
use std::collections::BTreeMap;

/// Situations by name, and whether each was met.
type Met = Vec<(String, bool)>;

/// A call with what it met and left.
struct Seen<'a> {
    call: &'a Call,
    before: &'a World,
    after: &'a World,
    number: u32,
    limiters: Vec<Limiter>,
}

/// The largest worlds in which a call is made again with other limiters.
const SMALL: usize = 400;

/// The refusals that come after 21 in a call; none where the call does not test the limiters that stand.
fn after_21(refusals: &[u32]) -> &[u32] {
    let place = refusals.iter().position(|&number| number == 21);
    place.map_or(&[], |place| &refusals[place + 1..])
}

fn low_half(bound: u64) -> u64 {
    bound & u64::from(u32::MAX)
}

impl Seen<'_> {
    /// Whether the call tests the limiters that stand.
    fn tests(&self) -> bool {
        !after_21(library::refusals(self.call)).is_empty()
    }

    fn accepted(&self) -> bool {
        self.number == 0
    }

    fn broken(&self) -> bool {
        !self.limiters.iter().all(Limiter::is_sound)
    }

    /// Whether the accepted call leaves other amounts if the limiters are changed so.
    fn shows(&self, change: impl Fn(Limiter) -> Limiter) -> bool {
        let mut world = changed(self.before, change);
        let answer = reference::call(&mut world, self.call);
        answer.number == 0 && world.tracers != self.after.tracers
    }

    /// The same where only the limiters with this number are changed.
    fn shows_of(&self, number: u32, change: impl Fn(Limiter) -> Limiter) -> bool {
        let is = |limiter: &Limiter| limiter.number == number;
        let of = |limiter| {
            if is(&limiter) {
                change(limiter)
            } else {
                limiter
            }
        };
        self.limiters.iter().any(is) && self.shows(of)
    }

    /// Whether the call, made in both where every gas is the first one, leaves two gases with other amounts.
    fn parts_gases_alike(&self) -> bool {
        let cells = self.before.air.len();
        let mut world = self.before.clone();
        world.tracers = world.tracers[..cells].repeat(self.limiters.len());
        let world = books::with_new(&world);
        let (_, after, differ) = both(&world, self.call);
        if differ {
            report(&world, self.call);
            std::process::exit(1);
        }
        let mut gases = after.tracers.chunks_exact(cells);
        gases.any(|gas| gas != &after.tracers[..cells])
    }

    /// Which numbers of the limiters the amounts show, after an accepted call that changes some.
    #[rustfmt::skip]
    fn shown(&self) -> Met {
        let moves = self.tests() && !matches!(self.call, Call::CountZonal { .. });
        if !moves {
            return Vec::new();
        }
        let on = self.accepted() && self.before.air.len() <= SMALL;
        let call = library::name(self.call);
        let number = |number: u32| move |it| Limiter { number, ..it };
        let lo = |change: fn(u64) -> u64| move |it: Limiter| Limiter { lo: change(it.lo), ..it };
        let hi = |change: fn(u64) -> u64| move |it: Limiter| Limiter { hi: change(it.hi).max(it.lo), ..it };
        let met = |what: &str, met: bool| (format!("{call} shows {what}"), met);
        vec![
            met("2 beside 1", on && self.shows_of(2, number(1))),
            met("3 beside 1", on && self.shows_of(3, number(1))),
            met("3 beside 2", on && self.shows_of(3, number(2))),
            met("lo", on && self.shows_of(3, lo(|_| 0))),
            met("hi", on && self.shows_of(3, hi(|_| u64::MAX))),
            met("lo's high half", on && self.shows_of(3, lo(low_half))),
            met("hi's high half", on && self.shows_of(3, hi(low_half))),
            met("hi's highest bit", on && self.shows_of(3, hi(|hi| hi & !(1 << 63)))),
            met("the limiters of gases alike", on && self.parts_gases_alike()),
        ]
    }

    /// 21 by one tracer's limiter, in each call that tests it.
    #[rustfmt::skip]
    fn refused_by_21(&self) -> Met {
        if !self.tests() {
            return Vec::new();
        }
        let call = library::name(self.call);
        let on = self.number == 21;
        let faulty: Vec<usize> = (0..self.limiters.len())
            .filter(|&t| !self.limiters[t].is_sound())
            .collect();
        let alone = |t: usize| on && faulty[..] == [t] && self.limiters.len() > 1;
        let one = faulty.first().map(|&t| self.limiters[t]);
        let by = |test: &dyn Fn(Limiter) -> bool| on && one.is_some_and(test);
        let bounds = |number: u32| by(&|it| it.number == number && it.lo > it.hi);
        let met = |what: &str, met: bool| (format!("{call} 21, {what}"), met);
        vec![
            met("an unknown limiter", by(&|it| it.lo <= it.hi)),
            met("limiter 1 with lo above hi", bounds(1)),
            met("limiter 2 with lo above hi", bounds(2)),
            met("limiter 3 with lo above hi", bounds(3)),
            met("the first tracer only", alone(0)),
            met("the last tracer only", alone(self.limiters.len().wrapping_sub(1))),
        ]
    }

    /// 21 where a later refusal applies too, and earlier ones where 21 does.
    fn together(&self) -> Met {
        if !self.tests() {
            return Vec::new();
        }
        let call = library::name(self.call);
        let applies = match self.number {
            21 => reference::call(&mut with_first(self.before), self.call).number,
            _ => 0,
        };
        let refusals = library::refusals(self.call);
        let later = after_21(refusals).iter().map(|&later| {
            (
                format!("{call} 21 where {later} applies too"),
                applies == later,
            )
        });
        let earlier = [2, 3, 4].map(|earlier| {
            let met = self.number == earlier && self.broken();
            (format!("{earlier} where 21 applies too"), met)
        });
        later.chain(earlier).collect()
    }

    /// A limiter set, or not.
    #[rustfmt::skip]
    fn set(&self) -> Met {
        let &Call::SetLimiter {
            tracer,
            limiter: number,
            lo,
            hi,
        } = self.call
        else {
            return Vec::new();
        };
        let given = Limiter { number, lo, hi };
        let of_tracer = self.limiters.get(tracer as usize);
        let others = self.limiters.iter().enumerate();
        let mut others = others.filter(|(t, _)| *t != tracer as usize);
        let on = self.accepted();
        let by_bounds = |limiter: u32| self.number == 21 && lo > hi && number == limiter;
        let unread = |limiter: u32| on && number == limiter && (lo, hi) != (0, 0);
        let met = |what: &str, met: bool| (format!("set_limiter {what}"), met);
        vec![
            met("over a broken one", on && of_tracer.is_some_and(|it| !it.is_sound())),
            met("beside a broken one", on && others.any(|(_, it)| !it.is_sound())),
            met("as it stands", on && of_tracer == Some(&given)),
            met("1 with bounds", unread(1)),
            met("2 with bounds", unread(2)),
            met("3 with lo = hi", on && number == 3 && lo == hi),
            met("3 with hi 2^64 - 1", on && number == 3 && hi == u64::MAX),
            met("21, an unknown limiter", self.number == 21 && lo <= hi),
            met("21, 1 with lo above hi", by_bounds(1)),
            met("21, 2 with lo above hi", by_bounds(2)),
            met("21, 3 with lo above hi", by_bounds(3)),
            met("21 for what is given, where a broken one stands", self.number == 21 && self.broken()),
            met("5 where 21 applies too", self.number == 5 && !given.is_sound()),
        ]
    }

    /// The calls that do not test limiters, beside broken ones; a load writes them.
    #[rustfmt::skip]
    fn untested(&self) -> Met {
        if self.tests() {
            return Vec::new();
        }
        let call = library::name(self.call);
        let on = self.accepted() && self.broken();
        let load = *self.call == Call::Load;
        let chosen = self.limiters.iter().any(|limiter| limiter.number != 1);
        vec![
            (format!("{call} accepted beside a broken limiter"), on),
            ("a refused load over other limiters".into(), load && !self.accepted() && chosen),
        ]
    }
}

#[derive(Default)]
pub struct Situations {
    met: BTreeMap<String, u64>,
}

impl Situations {
    /// Counts a call with its answer.
    pub fn add(&mut self, before: &World, call: &Call, after: &World, answer: Answer) {
        let seen = Seen {
            call,
            before,
            after,
            number: answer.number,
            limiters: standing(before).collect(),
        };
        let groups = [
            seen.shown(),
            seen.refused_by_21(),
            seen.together(),
            seen.set(),
            seen.untested(),
        ];
        for (name, met) in groups.into_iter().flatten() {
            *self.met.entry(name).or_default() += u64::from(met);
        }
    }

    pub fn print(&self) {
        let met = self.met.iter();
        let all: Vec<String> = met.map(|(name, times)| format!("{name} {times}")).collect();
        println!("limiters: {}", all.join("; "));
    }

    /// The situations that were not met.
    pub fn missing(&self) -> impl Iterator<Item = String> + '_ {
        let unmet = self.met.iter().filter(|(_, times)| **times == 0);
        unmet.map(|(name, _)| format!("not met: {name}"))
    }
}
