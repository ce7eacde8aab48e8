// @MADE@
//! The second implementation's calls, made in the library and written as lines of a script.

use puldeho::{raw, Grid, Refusal};
use reference::{Call, World};

/// Makes the call in the library.
pub fn call(world: &mut World, call: &Call) -> Result<u64, Refusal> {
    let World { grid, @LISTS@ } = world;
    let grid = Grid { w: grid.w, r: grid.r, k: grid.k, n: grid.n };
    match call {
@CALLS@    }
}

/// The call's name.
pub fn name(call: &Call) -> &'static str {
    match call {
@NAMES@    }
}

/// The refusals that the table names for the call.
pub fn refusals(call: &Call) -> &'static [u32] {
    match call {
@NAMED@    }
}

/// Every call's name, with the refusals that the table names for it.
pub const TABLE: &[(&str, &[u32])] = &[
@TABLE@];

/// The call as a line of a script.
pub fn line(call: &Call) -> String {
    match call {
@LINES@    }
}

/// Each number with a space before it.
pub fn numbers<T: std::fmt::Display>(list: &[T]) -> String {
    list.iter().map(|number| format!(" {number}")).collect()
}
