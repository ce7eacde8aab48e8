//! "Remap of all columns."

use crate::grid::{amount_of, World, MOST_AIR};
use crate::limiter::Limiter;
use crate::scheme::{mismatch, piece_from_low_end, ratio};
use crate::{ledger, readout, refusal};

/// "an a above 2,097,120"
const MOST_A: u32 = 2_097_120;
/// "The b of a table keeps its 65,536" (document 02): the scale of b, the last pair's b, and the
/// largest.
const TABLE_SCALE: u32 = 65_536;

/// Where an edge lies in the old column: the number of whole old layers above it, and the
/// units of air above it in the next old layer.
struct Place {
    whole: usize,
    rest: i64,
}

/// "first pair not (0, 0), last not (0, 65,536), an a above 2,097,120, a b above 65,536" is
/// refusal 11. The table is a, b, a, b, ... of K + 1 pairs.
fn check_table(table: &[u32]) -> Result<(), u32> {
    let good = table.starts_with(&[0, 0])
        && table.ends_with(&[0, TABLE_SCALE])
        && table
            .chunks_exact(2)
            .all(|pair| pair[0] <= MOST_A && pair[1] <= TABLE_SCALE);
    good.then_some(()).ok_or(refusal::TABLE)
}

/// "edge j = a + floor(b·P / 65,536)"; P is the column's "air sum".
fn edges(table: &[u32], p: i64) -> Vec<i64> {
    table
        .chunks_exact(2)
        .map(|pair| i64::from(pair[0]) + i64::from(pair[1]) * p / i64::from(TABLE_SCALE))
        .collect()
}

/// "in some column edges don't rise strictly, or a new layer exceeds 65,535" is refusal 12.
fn check_edges(edges: &[i64]) -> Result<(), u32> {
    let good = edges
        .windows(2)
        .all(|pair| pair[0] < pair[1] && pair[1] - pair[0] <= MOST_AIR);
    good.then_some(()).ok_or(refusal::REMAP)
}

/// A column's edges, from the check of the table on.
pub(crate) fn column_edges(table: &[u32], p: i64) -> Result<Vec<i64>, u32> {
    check_table(table)?;
    let edges = edges(table, p);
    check_edges(&edges)?;
    Ok(edges)
}

/// The places of rising edges, the first of them 0 and the last the column's air sum.
fn places(air: &[i64], edges: &[i64]) -> Vec<Place> {
    let (mut whole, mut above) = (0, 0);
    let place_of = |&edge: &i64| {
        while whole < air.len() && above + air[whole] <= edge {
            above += air[whole];
            whole += 1;
        }
        let rest = edge - above;
        Place { whole, rest }
    };
    edges.iter().map(place_of).collect()
}

/// Each layer's mismatch in a column. "High side is down." "Caps (in a remap too), and the top
/// and bottom layers in a remap, have D = 0." "caps and end layers keep D = 0" (document 02), under
/// every limiter.
pub(crate) fn mismatches(limiter: &Limiter, air: &[i64], tracer: &[i64], is_cap: bool) -> Vec<i64> {
    let mut mismatches = vec![0; air.len()];
    if is_cap {
        return mismatches;
    }
    let ratios: Vec<i64> = air.iter().zip(tracer).map(|(&m, &t)| ratio(m, t)).collect();
    for (k, three) in ratios.windows(3).enumerate() {
        mismatches[k + 1] = mismatch(limiter, three[0], three[1], three[2]);
    }
    mismatches
}

/// The tracer in the first 0, 1, ... whole layers.
fn whole_layers(tracer: &[i64]) -> Vec<i64> {
    let mut sums = vec![0];
    for (k, amount) in tracer.iter().enumerate() {
        sums.push(sums[k] + amount);
    }
    sums
}

/// G at each place: "Let G(x) be the tracer in the x units of air from the top: whole layers,
/// then a low-end piece."
fn tracer_from_top(
    limiter: &Limiter,
    air: &[i64],
    tracer: &[i64],
    is_cap: bool,
    places: &[Place],
) -> Vec<i64> {
    let mismatches = mismatches(limiter, air, tracer, is_cap);
    let whole_layers = whole_layers(tracer);
    let at = |place: &Place| {
        let k = place.whole;
        let piece = if place.rest > 0 {
            piece_from_low_end(air[k], tracer[k], mismatches[k], place.rest)
        } else {
            0
        };
        whole_layers[k] + piece
    };
    places.iter().map(at).collect()
}

/// G at each edge of one column. The edges rise from 0 to the column's air sum.
pub fn tracer_above_edges(
    limiter: &Limiter,
    air: &[i64],
    tracer: &[i64],
    is_cap: bool,
    edges: &[i64],
) -> Vec<i64> {
    tracer_from_top(limiter, air, tracer, is_cap, &places(air, edges))
}

/// "A column is one cell place through all K layers": its amounts.
fn column(amounts: &[u32], cell: usize, layer_cells: usize) -> Vec<i64> {
    amounts[cell..]
        .iter()
        .step_by(layer_cells)
        .map(|&amount| i64::from(amount))
        .collect()
}

/// "New layer j has air edge(j+1) − edge(j) and tracer G(edge(j+1)) − G(edge(j))."
fn write_differences(amounts: &mut [u32], cell: usize, layer_cells: usize, at_edges: &[i64]) {
    let layers = amounts[cell..].iter_mut().step_by(layer_cells);
    for (amount, pair) in layers.zip(at_edges.windows(2)) {
        *amount = amount_of(pair[1] - pair[0]);
    }
}

/// The remap, from the check of the limiters on. Its count is document 02's (readout.rs), "summed
/// over columns".
pub fn remap(world: &mut World, table: &[u32]) -> Result<u64, u32> {
    let grid = world.grid;
    let layer_cells = grid.layer_cells();
    let limiters = ledger::limiters(world)?;
    check_table(table)?;
    for cell in 0..layer_cells {
        let p = column(&world.air, cell, layer_cells).iter().sum();
        check_edges(&edges(table, p))?;
    }

    let mut count = 0;
    for cell in 0..layer_cells {
        let air = column(&world.air, cell, layer_cells);
        let edges = edges(table, air.iter().sum());
        count += readout::count(&air, &edges);
        let places = places(&air, &edges);
        for (t, limiter) in limiters.iter().enumerate() {
            let tracer = column(world.tracer(t), cell, layer_cells);
            let at_edges = tracer_from_top(limiter, &air, &tracer, grid.is_cap(cell), &places);
            write_differences(world.tracer_mut(t), cell, layer_cells, &at_edges);
        }
        write_differences(&mut world.air, cell, layer_cells, &edges);
    }
    Ok(count)
}
