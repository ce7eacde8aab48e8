//! "Remap on the slow consoles": document 02's walk down one column, for one tracer. The remap
//! (remap.rs) doesn't use it; the tests compare the two.

use crate::grid::{signed, sum, MOST_AIR, MOST_TRACER};
use crate::limiter::Limiter;
use crate::remap::{column_edges, mismatches};
use crate::scheme::piece_from_low_end;

/// One tracer of a column: its old layers from the top down.
pub struct Column {
    air: Vec<i64>,
    tracer: Vec<i64>,
    mismatches: Vec<i64>,
}

impl Column {
    pub fn new(limiter: &Limiter, air: &[i64], tracer: &[i64], is_cap: bool) -> Column {
        Column {
            air: air.to_vec(),
            tracer: tracer.to_vec(),
            mismatches: mismatches(limiter, air, tracer, is_cap),
        }
    }

    /// A low-end piece of m units of air of layer k. "High side is down."
    fn piece(&self, k: usize, m: i64) -> i64 {
        piece_from_low_end(self.air[k], self.tracer[k], self.mismatches[k], m)
    }
}

/// Where a walk stands: "keep the running amount from edge to edge."
#[derive(Clone, Copy, Debug, Default, PartialEq, Eq)]
pub struct State {
    /// The old layers passed.
    pub layers: usize,
    /// Their air.
    pub above: i64,
    /// Their tracer, "the running amount".
    pub amount: i64,
    /// The edges passed after edge 0. Edge 0 is the start and no step.
    pub edges: usize,
    /// The tracer above the edge passed last.
    pub mark: i64,
}

/// A step: "each passing one edge or one old layer and adding at most one layer's amount or
/// piece". An edge in a layer, or at its end, is passed before the layer. Past the last edge
/// there is no step.
pub fn step(column: &Column, edges: &[i64], state: &State) -> Option<State> {
    let edge = *edges.get(state.edges + 1)?;
    let end = state.above + column.air[state.layers];
    Some(if edge <= end {
        pass_edge(column, edge, state)
    } else {
        pass_layer(column, state)
    })
}

/// The edge is passed; "one .. piece" is added, of the layer in which it lies.
fn pass_edge(column: &Column, edge: i64, state: &State) -> State {
    let piece = column.piece(state.layers, edge - state.above);
    State {
        edges: state.edges + 1,
        mark: state.amount + piece,
        ..*state
    }
}

/// The layer is passed; "one layer's amount" is added.
fn pass_layer(column: &Column, state: &State) -> State {
    let k = state.layers;
    State {
        layers: k + 1,
        above: state.above + column.air[k],
        amount: state.amount + column.tracer[k],
        ..*state
    }
}

/// The states after 0, 1, 2, .. steps from the top, as far as there are steps. The edges rise
/// from 0 to the column's air sum.
pub fn states(column: &Column, edges: &[i64]) -> Vec<State> {
    let next = |state: &State| step(column, edges, state);
    std::iter::successors(Some(State::default()), next).collect()
}

/// The number of steps made: one less than the states.
pub fn steps(states: &[State]) -> usize {
    states.len() - 1
}

/// The states for a column's lists and a table; none if no remap accepts such a column.
pub fn states_by_table(
    limiter: &Limiter,
    air: &[u32],
    tracer: &[u32],
    is_cap: bool,
    table: &[u32],
) -> Option<Vec<State>> {
    let lengths_fit = tracer.len() == air.len() && table.len() == 2 * (air.len() + 1);
    let (layers, amounts) = (signed(air), signed(tracer));
    let air_fits = layers.iter().all(|air| (1..=MOST_AIR).contains(air));
    if !lengths_fit || !air_fits || sum(tracer) > MOST_TRACER {
        return None;
    }
    let edges = column_edges(table, layers.iter().sum()).ok()?;
    let column = Column::new(limiter, &layers, &amounts, is_cap);
    Some(states(&column, &edges))
}
