//! What the calls on emitters met in the comparison: each end of their numbers, each fault of a record, refusals alone and together.

use crate::ledgers::{BLOCK, EMITTERS};
use crate::worlds::{cells, in_range, MOST};
use reference::{Answer, Call, World};
use std::collections::{BTreeMap, BTreeSet};

/// Situations by name, and whether each was met.
type Met = Vec<(&'static str, bool)>;

/// A tracer's record, as a reader of the ledger sees it.
struct Record<'a> {
    block: &'a [u32],
    cells: u64,
}

impl Record<'_> {
    /// Id, cell, units of each standing emitter, of at most 16.
    fn emitters(&self) -> impl DoubleEndedIterator<Item = &[u32]> + ExactSizeIterator {
        self.block[3..].chunks_exact(3).take(self.standing())
    }

    fn standing(&self) -> usize {
        self.block[0] as usize
    }

    fn past(&self) -> impl Iterator<Item = &[u32]> {
        self.block[3..].chunks_exact(3).skip(self.standing())
    }

    fn kept_sum(&self) -> u64 {
        u64::from(self.block[1]) + (u64::from(self.block[2]) << 32)
    }

    fn has(&self, id: u32) -> bool {
        self.emitters().any(|emitter| emitter[0] == id)
    }

    /// Too many, an absent cell, an id twice, a sum false in its low half, or in its high half only.
    fn faults(&self) -> [bool; 5] {
        let absent = self.emitters().any(|it| u64::from(it[1]) >= self.cells);
        let ids: BTreeSet<u32> = self.emitters().map(|it| it[0]).collect();
        let sum: u64 = self.emitters().map(|it| u64::from(it[2])).sum();
        let low = sum as u32 != self.block[1];
        let high = !low && sum != self.kept_sum();
        let twice = ids.len() < self.emitters().len();
        [self.standing() > 16, absent, twice, low, high]
    }

    fn is_sound(&self) -> bool {
        self.faults() == [false; 5]
    }
}

/// A call with what it met and left.
struct Seen<'a> {
    call: &'a Call,
    before: &'a World,
    number: u32,
    records: Vec<Record<'a>>,
    after: Vec<Record<'a>>,
}

fn records(world: &World) -> Vec<Record<'_>> {
    let cells = if in_range(&world.grid) {
        cells(&world.grid)
    } else {
        0
    };
    let blocks = world.ledger.chunks_exact(BLOCK);
    let records = blocks.map(|block| &block[..EMITTERS]);
    records.map(|block| Record { block, cells }).collect()
}

impl Seen<'_> {
    /// The tracer that a call on emitters names.
    fn tracer(&self) -> Option<usize> {
        match *self.call {
            Call::AddEmitter { tracer, .. }
            | Call::RemoveEmitter { tracer, .. }
            | Call::Tick { tracer }
            | Call::UnitsATick { tracer } => Some(tracer as usize),
            _ => None,
        }
    }

    /// The record of the tracer that a call on emitters names, where it has one.
    fn named(&self) -> Option<&Record<'_>> {
        self.records.get(self.tracer()?)
    }

    fn others(&self) -> impl Iterator<Item = &Record<'_>> {
        let named = self.tracer();
        let all = self.records.iter().enumerate();
        all.filter(move |(t, _)| Some(*t) != named).map(|(_, r)| r)
    }

    fn all_sound(&self) -> bool {
        self.records.iter().all(Record::is_sound)
    }

    /// The named tracer's total with the units of a tick.
    fn total_after_tick(&self) -> Option<u64> {
        let record = self.named()?;
        let gas = self.before.tracers.chunks(record.cells.max(1) as usize);
        let total: u64 = gas
            .skip(self.tracer()?)
            .take(1)
            .flatten()
            .map(|&t| u64::from(t))
            .sum();
        Some(total + record.kept_sum())
    }

    #[rustfmt::skip]
    fn adding(&self) -> Met {
        let (id, units) = match *self.call {
            Call::AddEmitter { id, units, .. } => (id, units),
            _ => (0, 0),
        };
        let is_add = matches!(self.call, Call::AddEmitter { .. });
        let record = self.named().filter(|_| is_add && [0, 18].contains(&self.number));
        let met = |number: u32, test: &dyn Fn(&Record) -> bool| {
            self.number == number && record.is_some_and(test)
        };
        let full = |r: &Record| r.standing() == 16;
        let grew = |r: &Record| r.kept_sum() >> 32 == 0 && self.sum_after() >> 32 > 0;
        vec![
            ("the 16th added", met(0, &|r| r.standing() == 15)),
            ("18, 16 stand", met(18, &|r| full(r) && !r.has(id))),
            ("18, the id stands", met(18, &|r| !full(r) && r.has(id))),
            ("18, both", met(18, &|r| full(r) && r.has(id))),
            ("added with an id of another tracer", met(0, &|_| self.others().any(|r| r.has(id)))),
            ("added with an id past the standing ones", met(0, &|r| r.past().any(|it| it[0] == id))),
            ("zero units added", met(0, &|_| units == 0)),
            ("the largest units added", met(0, &|_| units == u32::MAX)),
            ("a sum that passes 32 bits", met(0, &grew)),
        ]
    }

    /// The sum that the named tracer's record keeps after the call.
    fn sum_after(&self) -> u64 {
        let record = self.tracer().and_then(|t| self.after.get(t));
        record.map_or(0, Record::kept_sum)
    }

    #[rustfmt::skip]
    fn removing(&self) -> Met {
        let id = match *self.call {
            Call::RemoveEmitter { id, .. } => Some(id),
            _ => None,
        };
        let record = self.named().filter(|_| [0, 19].contains(&self.number));
        let met = |number: u32, test: &dyn Fn(&Record, u32) -> bool| {
            let both = record.zip(id);
            self.number == number && both.is_some_and(|(r, id)| test(r, id))
        };
        let place = |r: &Record, id: u32| r.emitters().position(|it| it[0] == id);
        let fell = |r: &Record, _| r.kept_sum() >> 32 > 0 && self.sum_after() >> 32 == 0;
        vec![
            ("the only one removed", met(0, &|r, _| r.standing() == 1)),
            ("the first of several removed", met(0, &|r, id| r.standing() > 1 && place(r, id) == Some(0))),
            ("a middle one removed", met(0, &|r, id| (1..r.standing() - 1).contains(&place(r, id).unwrap()))),
            ("the last of several removed", met(0, &|r, id| r.standing() > 1 && place(r, id) == Some(r.standing() - 1))),
            ("one of 16 removed", met(0, &|r, _| r.standing() == 16)),
            ("a sum that falls to 32 bits", met(0, &fell)),
            ("19, none stands", met(19, &|r, _| r.standing() == 0)),
            ("19, the id stands under another tracer", met(19, &|_, id| self.others().any(|r| r.has(id)))),
            ("19, the id is past the standing ones", met(19, &|r, id| r.past().any(|it| it[0] == id))),
        ]
    }

    #[rustfmt::skip]
    fn ticking(&self) -> Met {
        let is_tick = matches!(self.call, Call::Tick { .. });
        let is_reading = matches!(self.call, Call::UnitsATick { .. });
        let record = self.named().filter(|_| is_tick && [0, 6].contains(&self.number));
        let met = |number: u32, test: &dyn Fn(&Record) -> bool| {
            self.number == number && record.is_some_and(test)
        };
        let shared = |r: &Record| {
            let cells: BTreeSet<u32> = r.emitters().map(|it| it[1]).collect();
            cells.len() < r.standing()
        };
        let ends_at = |total: u64| self.total_after_tick() == Some(total);
        let large = |r: &Record| r.kept_sum() >> 32 > 0;
        let large_reading = is_reading && self.number == 0 && self.named().is_some_and(large);
        vec![
            ("a tick, none stands", met(0, &|r| r.standing() == 0)),
            ("a tick of sum 0, some stand", met(0, &|r| r.standing() > 0 && r.kept_sum() == 0)),
            ("a tick of 16", met(0, &|r| r.standing() == 16)),
            ("a tick, two in one cell", met(0, &shared)),
            ("a tick to the limit", met(0, &|r| r.kept_sum() > 0 && ends_at(MOST))),
            ("6, by one unit", met(6, &|_| ends_at(MOST + 1))),
            ("6, a sum above 32 bits", met(6, &large)),
            ("a reading above 32 bits", large_reading),
        ]
    }

    /// 5 by one fault of one record, and 5 where another refusal applies too.
    fn refused_by_5(&self) -> Met {
        let on = self.number == 5 && self.tracer().is_some();
        let faulty: Vec<&Record> = self.records.iter().filter(|r| !r.is_sound()).collect();
        let fault = match faulty[..] {
            [one] if on => one.faults(),
            _ => [false; 5],
        };
        let alone = |i: usize| fault[i] && fault.iter().filter(|&&it| it).count() == 1;
        let of_named = self.named().is_some_and(|r| !r.is_sound());
        let other = |i: usize| alone(i) && self.named().is_some() && !of_named;
        let here = |i: usize| alone(i) && of_named;
        vec![
            ("5, too many stand, another tracer", fault[0] && !of_named),
            ("5, too many stand", fault[0] && of_named),
            ("5, an absent cell in another tracer's record", other(1)),
            ("5, an absent cell in the record", here(1)),
            ("5, an id twice in another tracer's record", other(2)),
            ("5, an id twice in the record", here(2)),
            ("5, a false sum of another tracer", other(3)),
            ("5, a false sum", here(3)),
            (
                "5, a sum of another tracer false in its high half only",
                other(4),
            ),
            ("5, a sum false in its high half only", here(4)),
            ("5, an absent index and no fault", on && self.all_sound()),
        ]
    }

    #[rustfmt::skip]
    fn refused_by_5_first(&self) -> Met {
        let record = self.named().filter(|r| self.number == 5 && r.is_sound());
        let with_18 = |r: &Record| matches!(*self.call, Call::AddEmitter { id, .. } if r.standing() == 16 || r.has(id));
        let with_19 = |r: &Record| matches!(*self.call, Call::RemoveEmitter { id, .. } if !r.has(id));
        let is_tick = matches!(self.call, Call::Tick { .. });
        let with_6 = |_: &Record| is_tick && self.total_after_tick() > Some(MOST);
        vec![
            ("5 where 18 applies too", record.is_some_and(with_18)),
            ("5 where 19 applies too", record.is_some_and(with_19)),
            ("5 where 6 applies too", record.is_some_and(with_6)),
        ]
    }

    /// Whether air and tracers have the grid's lengths, in a call without a list of its own.
    fn other_lengths_fit(&self) -> bool {
        let World {
            grid, air, tracers, ..
        } = self.before;
        let own_list = matches!(
            self.call,
            Call::Zonal { .. }
                | Call::LongZonal { .. }
                | Call::Meridional { .. }
                | Call::Remap { .. }
        );
        let count = if in_range(grid) {
            cells(grid) as usize
        } else {
            0
        };
        !own_list && air.len() == count && tracers.len() == count * grid.n as usize
    }

    #[rustfmt::skip]
    fn any_call(&self) -> Met {
        let by_ledger = self.number == 2 && self.other_lengths_fit();
        let on_emitters = self.tracer().is_some();
        let load = *self.call == Call::Load;
        let accepted = self.number == 0;
        let some_stand = self.records.iter().any(|r| r.standing() > 0);
        let any_past = self.named().is_some_and(|r| r.past().flatten().any(|&it| it != 0));
        vec![
            ("2 by the ledger alone, not on emitters", by_ledger && !on_emitters && !load),
            ("2 by the ledger alone, a load", by_ledger && load),
            ("2 by the ledger alone, on emitters", by_ledger && on_emitters),
            ("a load over a broken record", accepted && load && !self.all_sound()),
            ("a load over standing emitters", accepted && load && some_stand),
            ("a refused load over standing emitters", [3, 4].contains(&self.number) && load && some_stand),
            ("another call accepted beside a broken record", accepted && !load && !on_emitters && !self.all_sound()),
            ("accepted with other numbers than 0 past the standing ones", accepted && on_emitters && any_past),
        ]
    }
}

#[derive(Default)]
pub struct Situations {
    met: BTreeMap<&'static str, u64>,
}

impl Situations {
    /// Counts a call with its answer.
    pub fn add(&mut self, before: &World, call: &Call, after: &World, answer: Answer) {
        let seen = Seen {
            call,
            before,
            number: answer.number,
            records: records(before),
            after: records(after),
        };
        let groups = [
            seen.adding(),
            seen.removing(),
            seen.ticking(),
            seen.refused_by_5(),
            seen.refused_by_5_first(),
            seen.any_call(),
        ];
        for (name, met) in groups.into_iter().flatten() {
            *self.met.entry(name).or_default() += u64::from(met);
        }
    }

    pub fn print(&self) {
        let all: Vec<String> = self
            .met
            .iter()
            .map(|(name, times)| format!("{name} {times}"))
            .collect();
        println!("emitters: {}", all.join("; "));
    }

    /// The situations that were not met.
    pub fn missing(&self) -> impl Iterator<Item = String> + '_ {
        let unmet = self.met.iter().filter(|(_, times)| **times == 0);
        unmet.map(|(name, _)| format!("not met: {name}"))
    }
}
