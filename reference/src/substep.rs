//! One substep over the cells of a row or of a layer.

use crate::grid::MOST_AIR;
use crate::limiter::Limiter;
use crate::scheme::{mismatch, piece_from_high_end, piece_from_low_end, ratio};

/// A face between two cells. A positive flux goes from the low to the high cell.
pub struct Face {
    pub low: usize,
    pub high: usize,
}

/// The neighbours of a cell on its low and on its high side.
pub struct Neighbours {
    pub low: usize,
    pub high: usize,
}

/// The cells of a sweep: its faces in the order of the fluxes, and for each cell its two
/// neighbours. A cap has none here, as its mismatch is 0.
pub struct Region {
    pub faces: Vec<Face>,
    pub neighbours: Vec<Option<Neighbours>>,
}

/// What the flux takes out of the low cell of its face.
fn out_of_low(flux: i64) -> i64 {
    flux.max(0)
}

/// What the flux takes out of the high cell of its face.
fn out_of_high(flux: i64) -> i64 {
    (-flux).max(0)
}

impl Region {
    /// Each cell's outflow: "a cap has W faces, its outflow is the sum through all of them".
    fn outflows(&self, fluxes: &[i64]) -> Vec<i64> {
        let mut outflows = vec![0; self.neighbours.len()];
        for (face, &flux) in self.faces.iter().zip(fluxes) {
            outflows[face.low] += out_of_low(flux);
            outflows[face.high] += out_of_high(flux);
        }
        outflows
    }

    /// Each cell's air after the substep.
    pub fn air_after(&self, air: &[i64], fluxes: &[i64]) -> Vec<i64> {
        let mut after = air.to_vec();
        for (face, &flux) in self.faces.iter().zip(fluxes) {
            after[face.low] -= flux;
            after[face.high] += flux;
        }
        after
    }

    /// "A substep is allowed if no cell's outflow through its two faces exceeds its air, and
    /// every cell's air afterwards is 1 to 65,535."
    pub fn allowed(&self, air: &[i64], fluxes: &[i64]) -> bool {
        let outflows = self.outflows(fluxes);
        let after = self.air_after(air, fluxes);
        outflows.iter().zip(air).all(|(out, air)| out <= air)
            && after.iter().all(|air| (1..=MOST_AIR).contains(air))
    }

    /// Each cell's mismatch. "Caps [...] have D = 0." "caps and end layers keep D = 0" (document
    /// 02), under every limiter.
    fn mismatches(&self, limiter: &Limiter, air: &[i64], tracer: &[i64]) -> Vec<i64> {
        let ratios: Vec<i64> = air.iter().zip(tracer).map(|(&m, &t)| ratio(m, t)).collect();
        let of_cell = |(cell, neighbours): (usize, &Option<Neighbours>)| match neighbours {
            Some(near) => mismatch(limiter, ratios[near.low], ratios[cell], ratios[near.high]),
            None => 0,
        };
        self.neighbours.iter().enumerate().map(of_cell).collect()
    }

    /// One tracer after an allowed substep: "In each substep all pieces are taken from the
    /// amounts before it, an eastward one from the giver's high end, a westward one from the
    /// low end, then added to the receivers." "Pieces now take the limiter with the cell, and
    /// every caller hands it on."
    pub fn tracer_after(
        &self,
        limiter: &Limiter,
        air: &[i64],
        tracer: &[i64],
        fluxes: &[i64],
    ) -> Vec<i64> {
        let mismatches = self.mismatches(limiter, air, tracer);
        let mut after = tracer.to_vec();
        for (face, &flux) in self.faces.iter().zip(fluxes) {
            let (low, high) = (face.low, face.high);
            let m = flux.abs();
            if flux > 0 {
                let piece = piece_from_high_end(air[low], tracer[low], mismatches[low], m);
                after[low] -= piece;
                after[high] += piece;
            } else if flux < 0 {
                let piece = piece_from_low_end(air[high], tracer[high], mismatches[high], m);
                after[high] -= piece;
                after[low] += piece;
            }
        }
        after
    }
}
