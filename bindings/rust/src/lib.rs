//! The proved transport library, safe: any grid, numbers and lengths are answered.
//!
//! A [`World`] is made by a load and owns its lists: `air` with K·C numbers and `tracers` with N·K·C,
//! where C = 2 + R·W. Layer k starts at k·C, tracer t at t·K·C. The third, `ledger`, holds the emitters
//! that stand, the limiters and the books, and is written by the calls alone. A call gives its count, or the first
//! refusal that applies, and then it changed nothing. docs/GUIDE.md explains grid, units, fluxes, emitters, limiters
//! and books.
//!
//! What no type can say: the stack must have room for the call (bindings/puldeho.h has the bytes).

#[rustfmt::skip]
mod calls;

pub use calls::*;

/// The grid: W columns (4 to 72), R rows (1 to 44), K layers (1 to 32), N tracers (1 to 8).
#[derive(Clone, Copy, Debug, PartialEq, Eq)]
#[repr(C)]
pub struct Grid {
    pub w: u32,
    pub r: u32,
    pub k: u32,
    pub n: u32,
}

impl Grid {
    /// C, the cells of a layer: its R·W cells and the two caps.
    pub fn cells_in_layer(self) -> usize {
        2 + self.r as usize * self.w as usize
    }

    /// The number of a cell over all layers, if the grid has it.
    pub fn cell_number(self, layer: u32, row: u32, column: u32) -> Option<u32> {
        let present = layer < self.k && row < self.r && column < self.w;
        let in_layer = 1 + row as usize * self.w as usize + column as usize;
        present.then(|| (layer as usize * self.cells_in_layer() + in_layer) as u32)
    }

    /// The number of a layer's south cap, if the grid has the layer.
    pub fn south_cap(self, layer: u32) -> Option<u32> {
        (layer < self.k).then(|| (layer as usize * self.cells_in_layer()) as u32)
    }

    /// The number of a layer's north cap, if the grid has the layer.
    pub fn north_cap(self, layer: u32) -> Option<u32> {
        (layer < self.k).then(|| ((layer as usize + 1) * self.cells_in_layer() - 1) as u32)
    }
}

impl std::fmt::Display for Refusal {
    fn fmt(&self, f: &mut std::fmt::Formatter) -> std::fmt::Result {
        write!(
            f,
            "refusal {}: {}; {}",
            *self as u32,
            self.condition(),
            self.remedy()
        )
    }
}

impl std::error::Error for Refusal {}

/// A text that C writes, at most so many bytes with the final 0.
fn words(ask: impl FnOnce(*mut std::ffi::c_char, usize) -> std::ffi::c_int) -> String {
    calls::same_version();
    let mut text = [0u8; calls::WHY_SIZE];
    ask(text.as_mut_ptr().cast(), text.len());
    let length = text
        .iter()
        .position(|&byte| byte == 0)
        .unwrap_or(text.len());
    String::from_utf8_lossy(&text[..length]).into_owned()
}

/// What a call returned, answer · 2^32 + count, as a count or a refusal. A refusal has count 0.
fn outcome(returned: u64) -> Result<u32, Refusal> {
    let count = wide_outcome((returned >> 32) as u32, returned & 0xFFFF_FFFF)?;
    Ok(count as u32)
}

/// The answer and the count of a call as a count or a refusal. A refusal has count 0.
fn wide_outcome(answer: u32, count: u64) -> Result<u64, Refusal> {
    calls::same_version();
    if answer == 0 {
        return Ok(count);
    }
    let refused = |refusal: &Refusal| *refusal as u32 == answer && count == 0;
    let refusal = Refusal::ALL.iter().copied().find(refused);
    Err(refusal.expect("the library answers 0, or a refusal's number with count 0"))
}
