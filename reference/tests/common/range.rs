//! "Range": the cells that a substep, a remap or a long sweep writes, with their old
//! neighbourhoods, and document 02's claim of them; and what the fixed limiter promises of them.

use super::limits::{limits_of, Limits};
use super::{cells, layer_cells};
use reference::scheme::{ratio, SCALE};
use reference::{Grid, World};

/// One cell of one tracer after a substep, a remap or a long sweep.
#[derive(Debug)]
pub struct Written {
    pub tracer: usize,
    pub cell: usize,
    /// The tracer's limiter.
    pub limits: Limits,
    /// Air and tracer of each cell of its old neighbourhood.
    pub near: Vec<(u32, u32)>,
    /// Its own air and tracer afterwards.
    pub after: (u32, u32),
    /// Its faces in the sweep, "two, for a cap W"; 1 in a remap and in a long sweep.
    pub faces: u64,
}

impl Written {
    /// "in whole numbers, document 01's form with both sides taken four times", for e quarters of
    /// a unit: some cell there has 4·T·M' < (4·T' + e)·M, and some has 4·T'·M < 4·T·M' + e·M.
    pub fn within_quarters(&self, e: u64) -> bool {
        let (e, m2, t2) = self.wide(e);
        let above_least = self.some(|m, t| 4 * t * m2 < (4 * t2 + e) * m);
        let below_greatest = self.some(|m, t| 4 * t2 * m < 4 * t * m2 + e * m);
        above_least && below_greatest
    }

    /// Document 01: "some cell there, with air M and tracer T, has T·M' < (T' + e)·M, and some
    /// cell there has T'·M < T·M' + e·M."
    fn within_units(&self, e: u64) -> bool {
        let (e, m2, t2) = self.wide(e);
        let above_least = self.some(|m, t| t * m2 < (t2 + e) * m);
        let below_greatest = self.some(|m, t| t2 * m < t * m2 + e * m);
        above_least && below_greatest
    }

    /// "A cell after a substep is then within one unit for each face plus a quarter of a unit, and
    /// after a remap or a long sweep within one and a quarter". Document 01's e, "the cell's faces
    /// in that sweep (two, for a cap W) plus 1, and 2 for a remap", follows, and so do the two
    /// units of document 02's long sweep. "The range claim covers the first only."
    pub fn expect_in_range(&self) {
        if self.limits.limiter == 1 {
            assert!(self.within_quarters(4 * self.faces + 1), "{self:?}");
            assert!(self.within_units(self.faces + 1), "{self:?}");
        }
    }

    /// Whether the fixed limiter promises something of this cell: every ratio of the old
    /// neighbourhood is from lo to hi.
    pub fn has_promise(&self) -> bool {
        let within = |&(m, t): &(u32, u32)| {
            let q = ratio(m.into(), t.into()) as u64;
            (self.limits.lo..=self.limits.hi).contains(&q)
        };
        self.limits.limiter == 3 && self.near.iter().all(within)
    }

    /// How far T' is below lo·M' and above (hi + 1)·M', each in the ratios' scale, so that a unit
    /// of tracer is 262,144.
    pub fn beyond_bounds(&self) -> (i128, i128) {
        let (m2, t2) = (i128::from(self.after.0), i128::from(self.after.1));
        let (lo, hi) = (i128::from(self.limits.lo), i128::from(self.limits.hi));
        let scaled = i128::from(SCALE) * t2;
        (lo * m2 - scaled, scaled - (hi + 1) * m2)
    }

    /// What is promised of one substep, of a remap and of a long sweep: each is less than a unit
    /// for each face, and less than one unit in a remap and in a long sweep.
    pub fn expect_promise(&self) {
        if self.has_promise() {
            let most = i128::from(SCALE) * i128::from(self.faces);
            let (below, above) = self.beyond_bounds();
            assert!(below < most && above < most, "{self:?}");
        }
    }

    /// The range for the first limiter, and the promise of the third.
    pub fn expect_claims(&self) {
        self.expect_in_range();
        self.expect_promise();
    }

    /// Whether the range would hold without the quarter.
    pub fn within_faces(&self) -> bool {
        let within = self.within_quarters(4 * self.faces);
        assert_eq!(within, self.within_units(self.faces));
        within
    }

    /// Some cell of the old neighbourhood has this of its air and its tracer.
    fn some(&self, has: impl Fn(u128, u128) -> bool) -> bool {
        let mut near = self.near.iter();
        near.any(|&(m, t)| has(u128::from(m), u128::from(t)))
    }

    /// e, M' and T'.
    fn wide(&self, e: u64) -> (u128, u128, u128) {
        let (m2, t2) = self.after;
        (u128::from(e), u128::from(m2), u128::from(t2))
    }
}

/// The cell of all tracers, with the old cells that are near it.
fn written(
    before: &World,
    after: &World,
    cell: usize,
    near: &[usize],
    faces: usize,
) -> Vec<Written> {
    let cells = cells(&before.grid);
    let amounts = |world: &World, t: usize, c: usize| (world.air[c], world.tracers[t * cells + c]);
    (0..before.grid.n as usize)
        .map(|tracer| Written {
            tracer,
            cell,
            limits: limits_of(before, tracer),
            near: near.iter().map(|&c| amounts(before, tracer, c)).collect(),
            after: amounts(after, tracer, cell),
            faces: faces as u64,
        })
        .collect()
}

/// The row's first cell.
fn first_of_row(grid: &Grid, layer: u32, row: u32) -> usize {
    layer as usize * layer_cells(grid) + 1 + (row * grid.w) as usize
}

/// The row's cells after one zonal substep: "the cell and the cell across each of its faces in
/// that sweep".
pub fn of_zonal_substep(before: &World, after: &World, layer: u32, row: u32) -> Vec<Written> {
    let columns = before.grid.w as usize;
    let first = first_of_row(&before.grid, layer, row);
    let near = |i: usize| [i, (i + 1) % columns, (i + columns - 1) % columns].map(|i| first + i);
    (0..columns)
        .flat_map(|i| written(before, after, first + i, &near(i), 2))
        .collect()
}

/// The layer's cells after a meridional sweep.
pub fn of_meridional(before: &World, after: &World, layer: u32) -> Vec<Written> {
    let grid = &before.grid;
    let columns = grid.w as usize;
    let (south, north) = (0, layer_cells(grid) - 1);
    let first = layer as usize * layer_cells(grid);
    let mut found = Vec::new();
    for cell in 0..layer_cells(grid) {
        let across: Vec<usize> = if cell == south {
            (1..=columns).collect()
        } else if cell == north {
            (north - columns..north).collect()
        } else {
            vec![
                cell.saturating_sub(columns).max(south),
                (cell + columns).min(north),
            ]
        };
        let near: Vec<usize> = across.iter().chain([&cell]).map(|c| first + c).collect();
        found.extend(written(before, after, first + cell, &near, across.len()));
    }
    found
}

/// The layers of a column as pairs of upper and lower edge.
fn layer_edges(world: &World, cell: usize) -> Vec<(u64, u64)> {
    let mut upper = 0;
    let layers = world.air[cell..].iter().step_by(layer_cells(&world.grid));
    layers
        .map(|&m| {
            let lower = upper + u64::from(m);
            (std::mem::replace(&mut upper, lower), lower)
        })
        .collect()
}

/// The old layers that share air with the new layer.
fn sharing(old: &[(u64, u64)], new: (u64, u64)) -> Vec<usize> {
    (0..old.len())
        .filter(|&k| old[k].0.max(new.0) < old[k].1.min(new.1))
        .collect()
}

/// All cells after a remap: "the old layers that share air with the new one, and those next above
/// and below them". And the number of pairs that share air.
pub fn of_remap(before: &World, after: &World) -> (Vec<Written>, u64) {
    let columns = layer_cells(&before.grid);
    let mut found = Vec::new();
    let mut pairs = 0;
    for cell in 0..columns {
        let old = layer_edges(before, cell);
        for (j, &new) in layer_edges(after, cell).iter().enumerate() {
            let shared = sharing(&old, new);
            pairs += shared.len() as u64;
            let top = shared[0].saturating_sub(1);
            let bottom = (shared[shared.len() - 1] + 1).min(old.len() - 1);
            let near: Vec<usize> = (top..=bottom).map(|k| k * columns + cell).collect();
            found.extend(written(before, after, j * columns + cell, &near, 1));
        }
    }
    (found, pairs)
}

/// The air on the line before each face of a row, from the west of column 0 to the east of the
/// last column, each moved against its flux; and the old places, over three turns from turn −1.
fn line_after(row_air: &[u32], fluxes: &[i32]) -> (Vec<i64>, Vec<i64>) {
    let turn: i64 = row_air.iter().map(|&m| i64::from(m)).sum();
    let mut old = vec![-turn];
    for &m in row_air.iter().cycle().take(3 * row_air.len()) {
        old.push(old[old.len() - 1] + i64::from(m));
    }
    let last = fluxes.len() - 1;
    let mut new = vec![-i64::from(fluxes[last])];
    for (i, &flux) in fluxes.iter().enumerate() {
        new.push(old[fluxes.len() + i + 1] - i64::from(flux));
    }
    (old, new)
}

/// The row's cells after a long sweep: "the cells it overlaps and their neighbours". Air changes
/// by the fluxes.
pub fn of_long_zonal(
    before: &World,
    after: &World,
    layer: u32,
    row: u32,
    fluxes: &[i32],
) -> Vec<Written> {
    let columns = before.grid.w as usize;
    let first = first_of_row(&before.grid, layer, row);
    let (old, new) = line_after(&before.air[first..first + columns], fluxes);
    let mut found = Vec::new();
    for i in 0..columns {
        let (west, east) = (new[i], new[i + 1]);
        assert_eq!(i64::from(after.air[first + i]), east - west);
        let overlaps = (0..3 * columns).filter(|&c| old[c].max(west) < old[c + 1].min(east));
        let near: Vec<usize> = overlaps
            .flat_map(|c| [c + columns - 1, c, c + 1])
            .map(|c| first + c % columns)
            .collect();
        found.extend(written(before, after, first + i, &near, 1));
    }
    found
}
