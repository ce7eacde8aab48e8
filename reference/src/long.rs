//! "Fast rows near the caps": document 02's long zonal sweep of one row in one layer.

use crate::grid::{signed, write, World, MOST_AIR};
use crate::limiter::Limiter;
use crate::scheme::{mismatch, piece_from_low_end, ratio};
use crate::zonal::row_of;
use crate::{ledger, refusal};

/// One tracer of a row on its line: "Lay the row's air out on a line from column 0."
struct Line<'a> {
    air: &'a [i64],
    tracer: &'a [i64],
    mismatches: Vec<i64>,
}

impl<'a> Line<'a> {
    fn new(limiter: &Limiter, air: &'a [i64], tracer: &'a [i64]) -> Line<'a> {
        Line {
            air,
            tracer,
            mismatches: ring_mismatches(limiter, air, tracer),
        }
    }

    /// G at 0 to the row's air: "Let G be as in the remap, with the row's ring mismatches".
    /// A piece of a whole cell is the cell's tracer and a piece of nothing is 0, so "whole
    /// layers, then a low-end piece" is a piece of each cell, cut to what lies before x.
    fn within_a_turn(&self, x: i64) -> i64 {
        let mut before = 0;
        let mut amount = 0;
        for (i, &air) in self.air.iter().enumerate() {
            let m = (x - before).clamp(0, air);
            amount += piece_from_low_end(air, self.tracer[i], self.mismatches[i], m);
            before += air;
        }
        amount
    }

    /// G at any place: "carry it round so that one full turn adds the row's total."
    fn carried_round(&self, x: i64) -> i64 {
        let turn: i64 = self.air.iter().sum();
        let total: i64 = self.tracer.iter().sum();
        x.div_euclid(turn) * total + self.within_a_turn(x.rem_euclid(turn))
    }
}

/// Each cell's mismatch with its neighbours in the ring. "High side is east."
fn ring_mismatches(limiter: &Limiter, air: &[i64], tracer: &[i64]) -> Vec<i64> {
    let columns = air.len();
    let ratio_of = |i: usize| ratio(air[i % columns], tracer[i % columns]);
    let of_cell = |i: usize| {
        let (west, east) = (ratio_of(i + columns - 1), ratio_of(i + 1));
        mismatch(limiter, west, ratio_of(i), east)
    };
    (0..columns).map(of_cell).collect()
}

/// The faces from the west of column 0 to the east of the last column, which is the same face a
/// turn later: "the air before a face at its old place", and its flux.
fn faces(air: &[i64], fluxes: &[i64]) -> Vec<(i64, i64)> {
    let mut x = 0;
    let mut faces = vec![(x, fluxes[fluxes.len() - 1])];
    for (air, &flux) in air.iter().zip(fluxes) {
        x += air;
        faces.push((x, flux));
    }
    faces
}

/// "The face's new mark is G(x − F), for its flux F. A cell's tracer is its east mark less its
/// west mark, counting the turn at column 0."
fn tracer_after(limiter: &Limiter, air: &[i64], tracer: &[i64], faces: &[(i64, i64)]) -> Vec<i64> {
    let line = Line::new(limiter, air, tracer);
    let mark = |&(x, flux): &(i64, i64)| line.carried_round(x - flux);
    faces
        .windows(2)
        .map(|sides| mark(&sides[1]) - mark(&sides[0]))
        .collect()
}

/// "Air changes by the fluxes as ever."
fn air_after(air: &[i64], fluxes: &[i64]) -> Vec<i64> {
    let columns = air.len();
    (0..columns)
        .map(|i| air[i] + fluxes[(i + columns - 1) % columns] - fluxes[i])
        .collect()
}

/// "16 when a flux's size exceeds the row's air, 17 when air afterwards leaves 1 to 65,535, in
/// that order after 8, with its zonal limit, in a long sweep."
fn check(air: &[i64], fluxes: &[i64]) -> Result<(), u32> {
    let row_air: i64 = air.iter().sum();
    if fluxes.iter().any(|flux| flux.abs() > row_air) {
        return Err(refusal::LONG_FLUX);
    }
    let fits = |air: &i64| (1..=MOST_AIR).contains(air);
    if !air_after(air, fluxes).iter().all(fits) {
        return Err(refusal::LONG_AIR);
    }
    Ok(())
}

/// The sweep, from the check of the limiters on. It writes that row's cells in its layer only.
/// "Counts not named are 0."
pub fn sweep(world: &mut World, layer: u32, row: u32, fluxes: &[i32]) -> Result<u64, u32> {
    let limiters = ledger::limiters(world)?;
    let (cells, fluxes) = row_of(world.grid, layer, row, fluxes)?;
    let air = signed(&world.air[cells.clone()]);
    check(&air, &fluxes)?;

    let faces = faces(&air, &fluxes);
    for (t, limiter) in limiters.iter().enumerate() {
        let tracer = signed(&world.tracer(t)[cells.clone()]);
        let after = tracer_after(limiter, &air, &tracer, &faces);
        write(&mut world.tracer_mut(t)[cells.clone()], &after);
    }
    write(&mut world.air[cells], &air_after(&air, &fluxes));
    Ok(0)
}
