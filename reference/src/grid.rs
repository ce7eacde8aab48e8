//! The grid, the world, and the checks that every call makes (refusals 1, 3 and 4).

use crate::refusal;

/// "A cell holds M units of air (1 to 65,535)"; "the air limit keeps 65,535" (document 02).
pub(crate) const MOST_AIR: i64 = 65_535;
/// "A tracer's total over all cells is at most 268,435,455."
pub(crate) const MOST_TRACER: u64 = 268_435_455;

/// "The grid is W columns round the globe (4 to 72), R rows from south to north (1 to 44),
/// K layers from the top down (1 to 32) and N tracers (1 to 8)."
#[derive(Clone, Copy, Debug, PartialEq, Eq)]
pub struct Grid {
    pub w: u32,
    pub r: u32,
    pub k: u32,
    pub n: u32,
}

/// A grid with lent air, tracers and ledger, raw: any lengths, any numbers. The ledger has each
/// tracer's emitters, its limiter and its books (ledger.rs).
#[derive(Clone, Debug, PartialEq, Eq)]
pub struct World {
    pub grid: Grid,
    pub air: Vec<u32>,
    pub tracers: Vec<u32>,
    pub ledger: Vec<u32>,
}

impl Grid {
    /// "W, R, K or N outside its range" is refusal 1.
    pub(crate) fn check(&self) -> Result<(), u32> {
        let in_range = (4..=72).contains(&self.w)
            && (1..=44).contains(&self.r)
            && (1..=32).contains(&self.k)
            && (1..=8).contains(&self.n);
        in_range.then_some(()).ok_or(refusal::GRID)
    }

    // The lengths below are for a grid that passed its check.

    /// W.
    pub(crate) fn columns(&self) -> usize {
        self.w as usize
    }

    /// R.
    pub(crate) fn rows(&self) -> usize {
        self.r as usize
    }

    /// K.
    pub(crate) fn layers(&self) -> usize {
        self.k as usize
    }

    /// "A layer has C = 2 + R·W cells"
    pub(crate) fn layer_cells(&self) -> usize {
        2 + self.rows() * self.columns()
    }

    /// K·C, the cells over all layers.
    pub(crate) fn cells(&self) -> usize {
        self.layers() * self.layer_cells()
    }

    /// N·K·C, the amounts of all tracers.
    pub(crate) fn tracer_amounts(&self) -> usize {
        self.n as usize * self.cells()
    }

    /// Zonal: "W signed fluxes".
    pub(crate) fn zonal_fluxes(&self) -> usize {
        self.columns()
    }

    /// Meridional: "W·(R + 1) signed fluxes".
    pub(crate) fn meridional_fluxes(&self) -> usize {
        self.columns() * (self.rows() + 1)
    }

    /// "The table has K + 1 pairs (a, b)", here as one flat list.
    pub(crate) fn table_numbers(&self) -> usize {
        2 * (self.layers() + 1)
    }

    /// "Layer k starts at k·C": the cells of layer k.
    pub(crate) fn layer_range(&self, layer: usize) -> std::ops::Range<usize> {
        let first = layer * self.layer_cells();
        first..first + self.layer_cells()
    }

    /// "cell 1 + r·W + i is column i of row r": the cells of row r in layer k.
    pub(crate) fn row_range(&self, layer: usize, row: usize) -> std::ops::Range<usize> {
        let first = layer * self.layer_cells() + 1 + row * self.columns();
        first..first + self.columns()
    }

    /// "cell 0 is the south cap", "cell C − 1 is the north cap"
    pub(crate) fn is_cap(&self, cell_of_layer: usize) -> bool {
        cell_of_layer == 0 || cell_of_layer == self.layer_cells() - 1
    }

    /// An index that is absent is refusal 5.
    pub(crate) fn present(index: u32, number: usize) -> Result<usize, u32> {
        let index = index as usize;
        (index < number).then_some(index).ok_or(refusal::INDEX)
    }
}

impl World {
    /// "a cell's air is 0 or above 65,535" is refusal 3.
    pub(crate) fn check_air(&self) -> Result<(), u32> {
        let good = self
            .air
            .iter()
            .all(|&air| (1..=MOST_AIR).contains(&i64::from(air)));
        good.then_some(()).ok_or(refusal::AIR)
    }

    /// "a tracer's total above 268,435,455" is refusal 4.
    pub(crate) fn check_tracers(&self) -> Result<(), u32> {
        let good = self
            .tracers
            .chunks(self.grid.cells())
            .all(|tracer| sum(tracer) <= MOST_TRACER);
        good.then_some(()).ok_or(refusal::TRACERS)
    }

    /// "tracer t [starts] at t·K·C": the amounts of tracer t over all layers.
    pub(crate) fn tracer(&self, tracer: usize) -> &[u32] {
        let cells = self.grid.cells();
        &self.tracers[tracer * cells..(tracer + 1) * cells]
    }

    /// The same, to be written.
    pub(crate) fn tracer_mut(&mut self, tracer: usize) -> &mut [u32] {
        let cells = self.grid.cells();
        &mut self.tracers[tracer * cells..(tracer + 1) * cells]
    }

    /// "A gas total is one tracer's sum over all cells"
    pub(crate) fn total(&self, tracer: usize) -> u64 {
        sum(self.tracer(tracer))
    }
}

/// The sum of amounts.
pub(crate) fn sum(amounts: &[u32]) -> u64 {
    amounts.iter().map(|&amount| u64::from(amount)).sum()
}

/// Amounts as signed numbers, for the formulas.
pub(crate) fn signed(amounts: &[u32]) -> Vec<i64> {
    amounts.iter().map(|&amount| i64::from(amount)).collect()
}

/// Amounts back in their places. All results of the formulas are 32-bit amounts.
pub(crate) fn write(places: &mut [u32], amounts: &[i64]) {
    for (place, &amount) in places.iter_mut().zip(amounts) {
        *place = amount_of(amount);
    }
}

/// "All amounts are 32-bit."
pub(crate) fn amount_of(number: i64) -> u32 {
    u32::try_from(number).expect("an amount is 32-bit")
}
