//! A second implementation of document 01, the tracer console's transport core,
//! and of the requests of document 02 that have landed, written from their texts; of the walk
//! (walk.rs) README.md says what else was known. Quotes in the comments are sentences of
//! document 01, in scheme.rs, grid.rs, long.rs, emitters.rs, walk.rs, readout.rs, presses.rs,
//! remap.rs, ledger.rs, limiter.rs, books.rs and calls.rs of both.

mod books;
mod calls;
mod emitters;
mod grid;
mod ledger;
mod limiter;
mod long;
mod meridional;
mod presses;
pub mod readout;
pub mod refusal;
mod remap;
pub mod runner;
pub mod scheme;
pub mod script;
mod substep;
pub mod walk;
mod zonal;

pub use calls::{call, Answer, Call};
pub use grid::{Grid, World};
pub use limiter::Limiter;
pub use remap::tracer_above_edges;
