//! What the calls met of books: 22 for each way in which a book can be broken, alone and beside other refusals; sums at their ends; what loads
//! wrote over.

use crate::books::{all_balance, mended, standing, Book, MOST_SUM, WRAP};
use crate::library;
use crate::worlds::MOST;
use reference::{Answer, Call, World};
use std::collections::BTreeMap;

/// Situations by name, and whether each was met.
type Met = Vec<(String, bool)>;

/// A call with what it met and left.
struct Seen<'a> {
    call: &'a Call,
    before: &'a World,
    after: &'a World,
    number: u32,
    /// Each tracer's book before the call, with its summed cells.
    books: Vec<(Book, u64)>,
    /// Whether the call before it was a load over a broken book.
    mended: bool,
}

/// The tracer that a call names.
fn tracer_of(call: &Call) -> Option<usize> {
    match *call {
        Call::Emission { tracer, .. }
        | Call::Withdrawal { tracer, .. }
        | Call::Total { tracer }
        | Call::Cell { tracer, .. }
        | Call::AddEmitter { tracer, .. }
        | Call::RemoveEmitter { tracer, .. }
        | Call::Tick { tracer }
        | Call::UnitsATick { tracer }
        | Call::SetLimiter { tracer, .. } => Some(tracer as usize),
        _ => None,
    }
}

/// The refusals that come after 22 in a call; none of a load, which does not test the books.
fn after_22(refusals: &[u32]) -> &[u32] {
    let place = refusals.iter().position(|&number| number == 22);
    place.map_or(&[], |place| &refusals[place + 1..])
}

impl Seen<'_> {
    fn accepted(&self) -> bool {
        self.number == 0
    }

    fn is_load(&self) -> bool {
        *self.call == Call::Load
    }

    fn name(&self) -> &'static str {
        library::name(self.call)
    }

    /// The tracers whose book does not balance.
    fn broken(&self) -> Vec<usize> {
        let books = self.books.iter().enumerate();
        let broken = books.filter(|(_, (book, total))| !book.balances(*total));
        broken.map(|(tracer, _)| tracer).collect()
    }

    /// 22 by one tracer's book, in each call that tests it.
    #[rustfmt::skip]
    fn refused_by_22(&self) -> Met {
        if self.is_load() {
            return Vec::new();
        }
        let call = self.name();
        let broken = self.broken();
        let one = match broken[..] {
            [one] if self.number == 22 => Some(one),
            _ => None,
        };
        let by = |test: &dyn Fn(i64, i64) -> bool| {
            one.is_some_and(|t| test(self.books[t].0.left(), self.books[t].1 as i64))
        };
        let several = self.books.len() > 1;
        let wrap = WRAP as i64;
        let met = |what: &str, met: bool| (format!("{call} 22, {what}"), met);
        let mut all = vec![
            met("the cells have one more", by(&|left, cells| cells == left + 1)),
            met("the cells have one less", by(&|left, cells| cells == left - 1)),
            met("the cells have 2^32 more", by(&|left, cells| cells == left + wrap)),
            met("the cells have 2^32 less", by(&|left, cells| cells == left - wrap)),
            met("less than nothing is left", by(&|left, _| left < 0)),
            met("less than nothing is left, and nothing in the cells", by(&|left, cells| left < 0 && cells == 0)),
            met("the first tracer only", several && one == Some(0)),
            met("the last tracer only", several && one == Some(self.books.len() - 1)),
        ];
        if let Some(named) = tracer_of(self.call) {
            let there = named < self.books.len();
            all.push(met("the named tracer", one == Some(named)));
            all.push(met("another tracer", there && one.is_some_and(|t| t != named)));
        }
        all
    }

    /// 22 where a later refusal applies too, and earlier ones where 22 does. (21 is chosen.rs's.)
    fn together(&self) -> Met {
        if self.is_load() {
            return Vec::new();
        }
        let call = self.name();
        let applies = match self.number {
            22 => reference::call(&mut mended(self.before), self.call).number,
            _ => 0,
        };
        let later = after_22(library::refusals(self.call)).iter();
        let later = later.map(|&later| {
            let met = self.number == 22 && applies == later;
            (format!("{call} 22 where {later} applies too"), met)
        });
        let broken = !self.broken().is_empty();
        let earlier = [2, 3, 4].map(|earlier| {
            let met = self.number == earlier && broken;
            (format!("{earlier} where 22 applies too"), met)
        });
        later.chain(earlier).collect()
    }

    /// What an emission, a tick or a withdrawal adds to a sum of its tracer, that sum, and whether the total or the cell allows it.
    fn added(&self) -> Option<(u64, u64, bool)> {
        let tracer = tracer_of(self.call)?;
        let &(book, total) = self.books.get(tracer)?;
        let within = |units: u64| total + units <= MOST;
        match *self.call {
            Call::Emission { amount, .. } => {
                let amount = amount.into();
                Some((amount, book.emitted, within(amount)))
            }
            Call::Tick { .. } => {
                let reading = Call::UnitsATick {
                    tracer: tracer as u32,
                };
                let units = reference::call(&mut self.before.clone(), &reading).count;
                Some((units, book.emitted, within(units)))
            }
            Call::Withdrawal { cell, amount, .. } => {
                let place = tracer * self.before.air.len() + cell as usize;
                let had = *self.before.tracers.get(place)?;
                Some((amount.into(), book.withdrawn, amount <= had))
            }
            _ => None,
        }
    }

    /// The calls that add to a sum, at its end and past it.
    #[rustfmt::skip]
    fn ends(&self) -> Met {
        let own = match self.call {
            Call::Emission { .. } | Call::Tick { .. } => 6,
            Call::Withdrawal { .. } => 7,
            _ => return Vec::new(),
        };
        let call = self.name();
        let what = if own == 6 { "total" } else { "cell" };
        let decided = self.accepted() || self.number == own;
        let added = self.added().filter(|_| decided);
        let by = |test: &dyn Fn(u64, u64, bool) -> bool| added.is_some_and(|(units, sum, allowed)| test(units, sum, allowed));
        let passes = |units: u64, sum: u64| units + sum > MOST_SUM;
        let met = |text: String, met: bool| (format!("{call} {text}"), met);
        vec![
            met(format!("{own}, by the sum alone"), by(&|units, sum, allowed| passes(units, sum) && allowed)),
            met(format!("{own}, by the sum alone and one unit"), by(&|units, sum, allowed| units + sum == WRAP && allowed)),
            met(format!("{own}, by the {what} alone"), by(&|units, sum, allowed| !passes(units, sum) && !allowed)),
            met(format!("{own}, by both"), by(&|units, sum, allowed| passes(units, sum) && !allowed)),
            met("to the end of the sum".into(), by(&|units, sum, allowed| units > 0 && units + sum == MOST_SUM && allowed)),
            met("of nothing, at the end of the sum".into(), by(&|units, sum, allowed| units == 0 && sum == MOST_SUM && allowed)),
        ]
    }

    /// What an accepted call met in its tracer's book, or in some book where it names none: full ones of the sums that it does not add to.
    #[rustfmt::skip]
    fn accepted_with(&self) -> Met {
        if self.is_load() {
            return Vec::new();
        }
        let call = self.name();
        let read = match tracer_of(self.call) {
            Some(named) => self.books.get(named..=named).unwrap_or_default(),
            None => &self.books,
        };
        let some = |test: &dyn Fn(&Book) -> bool| self.accepted() && read.iter().any(|(book, _)| test(book));
        let met = |what: &str, met: bool| (format!("{call} with {what}"), met);
        let emits = matches!(self.call, Call::Emission { .. } | Call::Tick { .. });
        let withdraws = matches!(self.call, Call::Withdrawal { .. });
        let mut all = vec![
            met("all three sums", some(&|it| it.loaded > 0 && it.emitted > 0 && it.withdrawn > 0)),
            met("more than 2^32 put in", some(&|it| it.loaded + it.emitted > WRAP)),
            met("a full loaded sum", some(&|it| it.loaded == MOST_SUM)),
        ];
        if !emits {
            all.push(met("a full emitted sum", some(&|it| it.emitted == MOST_SUM)));
        }
        if !withdraws {
            all.push(met("a full withdrawn sum", some(&|it| it.withdrawn == MOST_SUM)));
        }
        all
    }

    /// Loads over books, and the call after one.
    #[rustfmt::skip]
    fn loads(&self) -> Met {
        let load = self.is_load();
        let broken = !self.broken().is_empty();
        let used = self.books.iter().any(|(book, _)| book.emitted > 0 && book.withdrawn > 0);
        let wrote = standing(self.after).all(|(book, total)| book == Book::of_load(total));
        vec![
            ("a load over a broken book".into(), load && self.accepted() && broken && wrote),
            ("a load over used sums".into(), load && self.accepted() && used && wrote),
            ("a load refused with 3 over a broken book".into(), load && self.number == 3 && broken),
            ("a load refused with 4 over a broken book".into(), load && self.number == 4 && broken),
            ("a call accepted after a load over a broken book".into(), !load && self.accepted() && self.mended),
        ]
    }
}

#[derive(Default)]
pub struct Situations {
    met: BTreeMap<String, u64>,
    mended: bool,
}

impl Situations {
    /// A new list begins.
    pub fn begin(&mut self) {
        self.mended = false;
    }

    /// Counts a call with its answer.
    pub fn add(&mut self, before: &World, call: &Call, after: &World, answer: Answer) {
        let seen = Seen {
            call,
            before,
            after,
            number: answer.number,
            books: standing(before).collect(),
            mended: self.mended,
        };
        self.mended = seen.is_load() && seen.accepted() && !all_balance(before);
        let groups = [
            seen.refused_by_22(),
            seen.together(),
            seen.ends(),
            seen.accepted_with(),
            seen.loads(),
        ];
        for (name, met) in groups.into_iter().flatten() {
            *self.met.entry(name).or_default() += u64::from(met);
        }
    }

    pub fn print(&self) {
        let met = self.met.iter();
        let all: Vec<String> = met.map(|(name, times)| format!("{name} {times}")).collect();
        println!("books: {}", all.join("; "));
    }

    /// The situations that were not met.
    pub fn missing(&self) -> impl Iterator<Item = String> + '_ {
        let unmet = self.met.iter().filter(|(_, times)| **times == 0);
        unmet.map(|(name, _)| format!("not met: {name}"))
    }
}
