//! "The remap readout": document 02's count of a remap. It takes a column's old air and its edges,
//! and uses nothing of the code that finds the new amounts from them (remap.rs).

use crate::grid::{signed, MOST_AIR};
use crate::remap::column_edges;
use std::ops::Range;

/// "an old and a new layer that share some air": their numbers, each counted from 0 at the top,
/// and the places between which they share it, in units of air from the column's top.
#[derive(Clone, Copy, Debug, PartialEq, Eq)]
pub struct Pair {
    pub old: usize,
    pub new: usize,
    pub from: i64,
    pub to: i64,
}

/// Each old layer from its top to its bottom, in units of air from the column's top.
fn old_layers(air: &[i64]) -> Vec<Range<i64>> {
    let mut bottom = 0;
    let layer = |&air: &i64| {
        let top = bottom;
        bottom += air;
        top..bottom
    };
    air.iter().map(layer).collect()
}

/// Each new layer from its upper edge to its lower edge, in the same units.
fn new_layers(edges: &[i64]) -> Vec<Range<i64>> {
    edges.windows(2).map(|pair| pair[0]..pair[1]).collect()
}

/// The air that two layers share, from its top to its bottom. Layers that only touch share none.
fn shared_air(old: &Range<i64>, new: &Range<i64>) -> Option<Range<i64>> {
    let shared = old.start.max(new.start)..old.end.min(new.end);
    (!shared.is_empty()).then_some(shared)
}

/// The pairs of a column: every old layer is tested with every new one.
pub fn pairs(air: &[i64], edges: &[i64]) -> Vec<Pair> {
    let (old_layers, new_layers) = (old_layers(air), new_layers(edges));
    let mut pairs = Vec::new();
    for (old, old_layer) in old_layers.iter().enumerate() {
        for (new, new_layer) in new_layers.iter().enumerate() {
            if let Some(shared) = shared_air(old_layer, new_layer) {
                let (from, to) = (shared.start, shared.end);
                pairs.push(Pair { old, new, from, to });
            }
        }
    }
    pairs
}

/// One column's part of the count: "The count becomes exactly the number of pairs of an old and
/// a new layer that share some air, summed over columns."
pub fn count(air: &[i64], edges: &[i64]) -> u64 {
    pairs(air, edges).len() as u64
}

/// The pairs for a column's air and a table; none if no remap accepts such a column.
pub fn pairs_by_table(air: &[u32], table: &[u32]) -> Option<Vec<Pair>> {
    let layers = signed(air);
    let length_fits = table.len() == 2 * (air.len() + 1);
    let air_fits = layers.iter().all(|air| (1..=MOST_AIR).contains(air));
    if !length_fits || !air_fits {
        return None;
    }
    let edges = column_edges(table, layers.iter().sum()).ok()?;
    Some(pairs(&layers, &edges))
}
