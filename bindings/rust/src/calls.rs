// Made by tools/bindings from the tables of bindings/: not to be edited.

use crate::{outcome, wide_outcome, words, Grid};
use std::ffi::{c_char, c_int};

/// Bytes that are room enough for any text that says why a call is refused.
pub(crate) const WHY_SIZE: usize = 1024;

/// struct puldeho_world of the C header.
#[repr(C)]
struct CWorld {
    grid: Grid,
    air: *const u32,
    air_length: usize,
    tracers: *const u32,
    tracers_length: usize,
    ledger: *const u32,
    ledger_length: usize,
    own_ledger: [u32; 472],
}

extern "C" {
    fn puldeho_why_load(world: *const CWorld, text: *mut c_char, size: usize) -> c_int;
    fn puldeho_why_emission(world: *const CWorld, tracer: u32, cell: u32, amount: u32, text: *mut c_char, size: usize) -> c_int;
    fn puldeho_why_withdrawal(world: *const CWorld, tracer: u32, cell: u32, amount: u32, text: *mut c_char, size: usize) -> c_int;
    fn puldeho_why_zonal(world: *const CWorld, layer: u32, row: u32, fluxes: *const i32, fluxes_length: usize, text: *mut c_char, size: usize) -> c_int;
    fn puldeho_why_count_zonal(world: *const CWorld, layer: u32, row: u32, fluxes: *const i32, fluxes_length: usize, text: *mut c_char, size: usize) -> c_int;
    fn puldeho_why_zonal_with_count(world: *const CWorld, layer: u32, row: u32, given: u32, fluxes: *const i32, fluxes_length: usize, text: *mut c_char, size: usize) -> c_int;
    fn puldeho_why_long_zonal(world: *const CWorld, layer: u32, row: u32, fluxes: *const i32, fluxes_length: usize, text: *mut c_char, size: usize) -> c_int;
    fn puldeho_why_meridional(world: *const CWorld, layer: u32, fluxes: *const i32, fluxes_length: usize, text: *mut c_char, size: usize) -> c_int;
    fn puldeho_why_remap(world: *const CWorld, table: *const u32, table_length: usize, text: *mut c_char, size: usize) -> c_int;
    fn puldeho_why_total(world: *const CWorld, tracer: u32, text: *mut c_char, size: usize) -> c_int;
    fn puldeho_why_cell(world: *const CWorld, tracer: u32, cell: u32, text: *mut c_char, size: usize) -> c_int;
    fn puldeho_why_add_emitter(world: *const CWorld, tracer: u32, cell: u32, id: u32, units: u32, text: *mut c_char, size: usize) -> c_int;
    fn puldeho_why_remove_emitter(world: *const CWorld, tracer: u32, id: u32, text: *mut c_char, size: usize) -> c_int;
    fn puldeho_why_tick(world: *const CWorld, tracer: u32, text: *mut c_char, size: usize) -> c_int;
    fn puldeho_why_units_a_tick(world: *const CWorld, tracer: u32, text: *mut c_char, size: usize) -> c_int;
    fn puldeho_why_set_limiter(world: *const CWorld, tracer: u32, limiter: u32, lo: u64, hi: u64, text: *mut c_char, size: usize) -> c_int;
}

/// Does nothing, and is linked with the library of this version only: another one's functions may take other arguments.
pub(crate) fn same_version() {
    extern "C" {
        fn puldeho_abi_0_8();
    }
    // SAFETY: it takes nothing and does nothing.
    unsafe { puldeho_abi_0_8() }
}

/// The version of the library that this wrapper was made for.
pub const VERSION: &str = "0.8.0";

/// The scale of ratios, mismatches and pieces, in which set_limiter takes its bounds: 262144 from version 0.6 on, and 65536 before. Builds whose scales differ may give other amounts
pub const SCALE: u32 = 262144;
/// The most air of a cell; the least is 1
pub const AIR_LIMIT: u32 = 65535;
/// The most units of a tracer in all cells together
pub const TOTAL_LIMIT: u32 = 268435455;
/// The most units of a tracer that its book has as emitted, or as withdrawn, since the load
pub const SUM_LIMIT: u32 = 4294967295;
/// The largest size of a flux of a zonal or a long zonal sweep
pub const ZONAL_LIMIT: u32 = 1048560;
/// The largest size of a flux of a meridional sweep
pub const MERIDIONAL_LIMIT: u32 = 65535;
/// The most substeps of a zonal sweep
pub const MOST_SUBSTEPS: u32 = 16;
/// The largest a of a remap's table
pub const TABLE_LIMIT: u32 = 2097120;
/// The b of a remap's table that stands for all the air of a column
pub const TABLE_SCALE: u32 = 65536;
/// The largest W; the least is 4
pub const MOST_COLUMNS: u32 = 72;
/// The largest R
pub const MOST_ROWS: u32 = 44;
/// The largest K
pub const MOST_LAYERS: u32 = 32;
/// The largest N
pub const MOST_TRACERS: u32 = 8;
/// The most emitters of a tracer that stand at once
pub const MOST_EMITTERS: u32 = 16;
/// How many numbers of the ledger each tracer has; tracer t's block starts at t times this number. Later versions have more
pub const LEDGER_BLOCK: u32 = 59;

/// Why a call was refused. It then changed nothing. `refusal as u32` is its number.
#[derive(Clone, Copy, Debug, PartialEq, Eq)]
#[non_exhaustive]
pub enum Refusal {
    /// W, R, K or N is outside its range
    GridRange = 1,
    /// a lent length is not the grid's
    Lengths = 2,
    /// a cell's air is 0 or above 65,535
    AirRange = 3,
    /// a tracer's total is above 268,435,455
    Totals = 4,
    /// the tracer, cell, layer or row is absent; in add_emitter, remove_emitter, tick and units_a_tick also: in the ledger some tracer has more than 16 emitters, an emitter in an absent cell, an id twice or a false sum
    Index = 5,
    /// the total would pass 268,435,455, or the tracer's emitted sum 4,294,967,295
    Emission = 6,
    /// the cell has less than the amount, or the tracer's withdrawn sum would pass 4,294,967,295
    Withdrawal = 7,
    /// a flux's size is above 1,048,560 (zonal) or 65,535 (meridional)
    Fluxes = 8,
    /// no count from 1 to 16 serves
    Zonal = 9,
    /// the substep is not allowed
    Meridional = 10,
    /// the first pair is not (0, 0), the last is not (0, 65,536), an a is above 2,097,120, or a b is above 65,536
    Table = 11,
    /// in some column the edges do not rise strictly, or a new layer exceeds 65,535
    Remap = 12,
    /// a flux's size exceeds the row's air
    LongFlux = 16,
    /// air afterwards leaves 1 to 65,535
    LongAir = 17,
    /// the tracer has 16 emitters or already has that id
    EmitterAdded = 18,
    /// the tracer has no emitter of that id
    EmitterAbsent = 19,
    /// the given count differs from the smallest that serves
    GivenCount = 20,
    /// a tracer's limiter is none of 1, 2 and 3, or its lo exceeds its hi
    Limiters = 21,
    /// a tracer's loaded + emitted - withdrawn is not the sum of its cells
    Books = 22,
}

impl Refusal {
    /// Every refusal, in the order of their numbers.
    pub const ALL: &'static [Refusal] = &[
        Refusal::GridRange,
        Refusal::Lengths,
        Refusal::AirRange,
        Refusal::Totals,
        Refusal::Index,
        Refusal::Emission,
        Refusal::Withdrawal,
        Refusal::Fluxes,
        Refusal::Zonal,
        Refusal::Meridional,
        Refusal::Table,
        Refusal::Remap,
        Refusal::LongFlux,
        Refusal::LongAir,
        Refusal::EmitterAdded,
        Refusal::EmitterAbsent,
        Refusal::GivenCount,
        Refusal::Limiters,
        Refusal::Books,
    ];

    /// The refusal's condition, in words.
    pub fn condition(self) -> &'static str {
        match self {
            Refusal::GridRange => "W, R, K or N is outside its range",
            Refusal::Lengths => "a lent length is not the grid's",
            Refusal::AirRange => "a cell's air is 0 or above 65,535",
            Refusal::Totals => "a tracer's total is above 268,435,455",
            Refusal::Index => "the tracer, cell, layer or row is absent; in add_emitter, remove_emitter, tick and units_a_tick also: in the ledger some tracer has more than 16 emitters, an emitter in an absent cell, an id twice or a false sum",
            Refusal::Emission => "the total would pass 268,435,455, or the tracer's emitted sum 4,294,967,295",
            Refusal::Withdrawal => "the cell has less than the amount, or the tracer's withdrawn sum would pass 4,294,967,295",
            Refusal::Fluxes => "a flux's size is above 1,048,560 (zonal) or 65,535 (meridional)",
            Refusal::Zonal => "no count from 1 to 16 serves",
            Refusal::Meridional => "the substep is not allowed",
            Refusal::Table => "the first pair is not (0, 0), the last is not (0, 65,536), an a is above 2,097,120, or a b is above 65,536",
            Refusal::Remap => "in some column the edges do not rise strictly, or a new layer exceeds 65,535",
            Refusal::LongFlux => "a flux's size exceeds the row's air",
            Refusal::LongAir => "air afterwards leaves 1 to 65,535",
            Refusal::EmitterAdded => "the tracer has 16 emitters or already has that id",
            Refusal::EmitterAbsent => "the tracer has no emitter of that id",
            Refusal::GivenCount => "the given count differs from the smallest that serves",
            Refusal::Limiters => "a tracer's limiter is none of 1, 2 and 3, or its lo exceeds its hi",
            Refusal::Books => "a tracer's loaded + emitted - withdrawn is not the sum of its cells",
        }
    }

    /// What to do about it, in words.
    pub fn remedy(self) -> &'static str {
        match self {
            Refusal::GridRange => "give W from 4 to 72, R from 1 to 44, K from 1 to 32 and N from 1 to 8, in this order",
            Refusal::Lengths => "take every length from the grid's length functions, and give lengths in numbers",
            Refusal::AirRange => "choose the unit of air so that every cell has 1 to 65,535, with room for the changes within a step",
            Refusal::Totals => "choose a larger unit for that gas, so that its total with all later emissions stays below the limit",
            Refusal::Index => "count from 0, and take cell numbers from the grid's functions for cells and caps; if the ledger is at fault, load the world again, which leaves no emitter standing, and add the emitters anew",
            Refusal::Emission => "correct an amount that is wrong, and remove an emitter whose units are wrong; else load the gas in a larger unit, with room for all emissions and ticks of the run, and add its emitters anew, with their units in the larger unit; if the emitted sum is full, read the book and load again, which begins the sums anew, then add the emitters and set the limiters anew",
            Refusal::Withdrawal => "read the cell first, and withdraw at most what it has; if the withdrawn sum is full, read the book and load again, which begins the sums anew, then add the emitters and set the limiters anew",
            Refusal::Fluxes => "give fluxes in units of air for this step, and divide the step if they are still too large",
            Refusal::Zonal => "make the sweep as two or more, each with a part of the fluxes, or as a long zonal sweep (in the library only), which gives other amounts of tracer; if a cell would end with no air or too much, make the whole step (zonal, meridional, remap) in parts, or make the meridional sweep or a remap first",
            Refusal::Meridional => "make the sweep as two or more, each with a part of the fluxes; if a cell would end with no air or too much, make the whole step (zonal, meridional, remap) in parts, or make the zonal sweeps or a remap first",
            Refusal::Table => "give K + 1 pairs a, b from the top down, with b in parts of 65,536, the first 0, 0 and the last 0, 65,536",
            Refusal::Remap => "use a = 0, and choose the b so that every layer gets 1 to 65,535 units in the column with the least air and in the one with the most",
            Refusal::LongFlux => "take whole turns, each the sum of the row's air, off every flux (add them if the fluxes are negative): a whole turn brings every cell back, so nothing else changes; or divide the step",
            Refusal::LongAir => "give fluxes that leave every cell 1 to 65,535; if the other sweeps of the step would bring the air back, make the whole step (zonal, meridional, remap) in parts, or make the meridional sweep or a remap first",
            Refusal::EmitterAdded => "remove a stack before you add it again with another cell or other units; add stacks of one cell as one emitter, with the sum of their units (to close one of them, remove the emitter and add it again with the rest); what does not fit 16 emitters give by emission",
            Refusal::EmitterAbsent => "remove each stack once, from the tracer that it was added to, and add the emitters anew after a load",
            Refusal::GivenCount => "see that layer, row and fluxes are those that were counted; then count again with count_zonal, look at the new count, and give that",
            Refusal::Limiters => "load the world before other calls, and again if the ledger was written by anything but calls, then add the emitters and set the limiters anew; give set_limiter 1, 2 or 3, and lo and hi as mixing ratios times 262,144, lo at most hi (with 1 and 2 both 0)",
            Refusal::Books => "load the world before other calls, and again after anything but calls wrote into tracers or ledger: what the cells have then is the loaded amount, and emitters and limiters must be set anew; to go back to a kept state, bring back tracers and ledger together",
        }
    }
}

/// A tracer's limiter, with the bounds that it reads: mixing ratios (units of gas for one of air) in parts of [`SCALE`].
#[derive(Clone, Copy, Debug, PartialEq, Eq)]
#[non_exhaustive]
pub enum Limiter {
    /// Van Leer's monotone limiter, which a load gives every tracer: no new highs and lows beyond rounding
    Present,
    /// Keeps steeper slopes: amounts never fall below 0, but may rise above all that was near
    Positive,
    /// Slopes as steep as keeps the ratio inside a cell between lo and hi; no slope in a cell whose ratio is outside. A promise for one substep, not for a run
    Fixed { lo: u64, hi: u64 },
}

impl Limiter {
    /// Its number, lo and hi, as [`raw::set_limiter`] takes them; a bound that it does not read is 0.
    pub fn numbers(self) -> (u32, u64, u64) {
        match self {
            Limiter::Present => (1, 0, 0),
            Limiter::Positive => (2, 0, 0),
            Limiter::Fixed { lo, hi } => (3, lo, hi),
        }
    }

    /// The limiter that has these in the ledger, if the number is one of a limiter.
    fn standing(number: u32, lo: u64, hi: u64) -> Option<Limiter> {
        match number {
            1 => Some(Limiter::Present),
            2 => Some(Limiter::Positive),
            3 => Some(Limiter::Fixed { lo, hi }),
            _ => None,
        }
    }
}

/// How long the lists are that go with a grid, and bounds on what a call does.
impl Grid {
    /// The length of air: K*C. In it: the air of every cell; layer k starts at k*C.
    pub fn air_length(self) -> usize {
        self.k as usize * self.cells_in_layer()
    }

    /// The length of tracers: N*K*C. In it: the amounts of every tracer; tracer t starts at t*K*C.
    pub fn tracers_length(self) -> usize {
        self.n as usize * self.k as usize * self.cells_in_layer()
    }

    /// The length of ledger: N*59. In it: the emitters, the limiter and the book, a block for each tracer: at its place 0 how many emitters stand, at 1 and 2 the sum of their units, low and high 32 bits, from 3 on id, cell and units of each, at 51 the limiter, at 52 and 53 its lo and at 54 and 55 its hi, low and high 32 bits, at 56 what was loaded, at 57 what was emitted and at 58 what was withdrawn.
    pub fn ledger_length(self) -> usize {
        self.n as usize * 59
    }

    /// The length of fluxes of a zonal call: W. In it: flux i crosses the face from column i to column i + 1, the last to column 0; positive eastward.
    pub fn zonal_fluxes_length(self) -> usize {
        self.w as usize
    }

    /// The length of fluxes of a count_zonal call: W. In it: flux i crosses the face from column i to column i + 1, the last to column 0; positive eastward.
    pub fn count_zonal_fluxes_length(self) -> usize {
        self.w as usize
    }

    /// The length of fluxes of a zonal_with_count call: W. In it: flux i crosses the face from column i to column i + 1, the last to column 0; positive eastward.
    pub fn zonal_with_count_fluxes_length(self) -> usize {
        self.w as usize
    }

    /// The length of fluxes of a long_zonal call: W. In it: flux i crosses the face from column i to column i + 1, the last to column 0; positive eastward.
    pub fn long_zonal_fluxes_length(self) -> usize {
        self.w as usize
    }

    /// The length of fluxes of a meridional call: (R + 1)*W. In it: flux g*W + i crosses between rows g - 1 and g in column i; row -1 is the south cap, row R the north cap; positive northward.
    pub fn meridional_fluxes_length(self) -> usize {
        (self.r as usize + 1) * self.w as usize
    }

    /// The length of table of a remap call: (K + 1)*2. In it: pair j is a at 2*j and b at 2*j + 1; edge j = a + floor(b*P/65536), P the air of the column.
    pub fn remap_table_length(self) -> usize {
        (self.k as usize + 1) * 2
    }

    /// The most steps of a remap call: N*C*2*K, which is 1,623,040 on the largest grid, 72 x 44 x 32 x 8. The remap goes down each column once for each tracer; a step passes one edge or one old layer and adds at most one layer's amount or piece, and 2*K steps always reach the last edge. Proved for every accepted remap, whatever table, air and amounts. Not counted is what is done beside these steps, such as tests, edges and slopes; the count comes with the steps.
    pub fn most_remap_steps(self) -> usize {
        self.n as usize * self.cells_in_layer() * 2 * self.k as usize
    }
}

/// A tracer's book: what was loaded, and what was emitted and withdrawn since then, in units. [`World::book`] gives it. The sums
/// have 32 bits in the ledger; here they can be added without a carry that is lost.
#[derive(Clone, Copy, Debug, PartialEq, Eq)]
pub struct Book {
    /// What the load found in all cells of the tracer.
    pub loaded: u64,
    /// What emissions and ticks have added since the load.
    pub emitted: u64,
    /// What withdrawals have taken since the load.
    pub withdrawn: u64,
}

/// A world that owns its lists, made by an accepted load, so that a later call is refused for its own arguments only.
/// Two are equal if all that they have is equal, also what a later version adds; to compare amounts, compare the lists.
#[derive(Clone, Debug, PartialEq, Eq)]
pub struct World {
    grid: Grid,
    air: Vec<u32>,
    tracers: Vec<u32>,
    ledger: Vec<u32>,
}

impl World {
    /// Takes the lists as the world from now on, if the load is accepted.
    pub fn load(grid: Grid, air: impl Into<Vec<u32>>, tracers: impl Into<Vec<u32>>) -> Result<World, Refusal> {
        let mut world = World { grid, air: air.into(), tracers: tracers.into(), ledger: vec![0; grid.ledger_length().min(472)] };
        raw::load(grid, &world.air, &world.tracers, &mut world.ledger)?;
        Ok(world)
    }

    /// Why a load of these lists is refused, in words.
    pub fn why_load(grid: Grid, air: impl Into<Vec<u32>>, tracers: impl Into<Vec<u32>>) -> String {
        let given = World { grid, air: air.into(), tracers: tracers.into(), ledger: vec![0; grid.ledger_length().min(472)] };
        let world = given.lent();
        // SAFETY: each pointer goes with its list's length, and nothing but the text is written.
        words(|text, size| unsafe { puldeho_why_load(&world, text, size) })
    }

    /// The world as C has it.
    fn lent(&self) -> CWorld {
        CWorld {
            grid: self.grid,
            air: self.air.as_ptr(),
            air_length: self.air.len(),
            tracers: self.tracers.as_ptr(),
            tracers_length: self.tracers.len(),
            ledger: self.ledger.as_ptr(),
            ledger_length: self.ledger.len(),
            own_ledger: [0; 472],
        }
    }

    /// The grid.
    pub fn grid(&self) -> Grid {
        self.grid
    }

    /// The book of a tracer, if the grid has the tracer. Reading does not test it; every call but a load does, as [`World::total`],
    /// for all tracers. As only calls write a world, none is refused with [`Refusal::Books`].
    pub fn book(&self, tracer: u32) -> Option<Book> {
        let block = self.ledger.chunks(LEDGER_BLOCK as usize).nth(tracer as usize)?;
        let sum = |place: usize| u64::from(block[56 + place]);
        Some(Book { loaded: sum(0), emitted: sum(1), withdrawn: sum(2) })
    }

    /// The limiter that a tracer has now, if the grid has the tracer.
    pub fn limiter(&self, tracer: u32) -> Option<Limiter> {
        let block = self.ledger.chunks(LEDGER_BLOCK as usize).nth(tracer as usize)?;
        let wide = |place: usize| u64::from(block[place]) | u64::from(block[place + 1]) << 32;
        Limiter::standing(block[51], wide(51 + 1), wide(51 + 3))
    }

    /// The air of every cell; layer k starts at k*C.
    pub fn air(&self) -> &[u32] {
        &self.air
    }

    /// The amounts of every tracer; tracer t starts at t*K*C.
    pub fn tracers(&self) -> &[u32] {
        &self.tracers
    }

    /// The emitters, the limiter and the book, a block for each tracer: at its place 0 how many emitters stand, at 1 and 2 the sum of their units, low and high 32 bits, from 3 on id, cell and units of each, at 51 the limiter, at 52 and 53 its lo and at 54 and 55 its hi, low and high 32 bits, at 56 what was loaded, at 57 what was emitted and at 58 what was withdrawn.
    pub fn ledger(&self) -> &[u32] {
        &self.ledger
    }

    /// Adds amount to one cell of one tracer, and to what its book has as emitted. Cells are numbered over all layers.
    ///
    /// Refusals, in order: 1 2 3 4 22 5 6.
    pub fn emission(&mut self, tracer: u32, cell: u32, amount: u32) -> Result<(), Refusal> {
        raw::emission(self.grid, &self.air, &mut self.tracers, &mut self.ledger, tracer, cell, amount)?;
        Ok(())
    }

    /// Takes amount from one cell of one tracer, and adds it to what its book has as withdrawn. Cells are numbered over all layers.
    ///
    /// Refusals, in order: 1 2 3 4 22 5 7.
    pub fn withdrawal(&mut self, tracer: u32, cell: u32, amount: u32) -> Result<(), Refusal> {
        raw::withdrawal(self.grid, &self.air, &mut self.tracers, &mut self.ledger, tracer, cell, amount)?;
        Ok(())
    }

    /// Sweeps one row of one layer by W fluxes, positive eastward.
    ///
    /// It gives the number of substeps, 1 to 16.
    ///
    /// Refusals, in order: 1 2 3 4 21 22 5 8 9.
    pub fn zonal(&mut self, layer: u32, row: u32, fluxes: &[i32]) -> Result<u32, Refusal> {
        raw::zonal(self.grid, &mut self.air, &mut self.tracers, &self.ledger, layer, row, fluxes)
    }

    /// Counts the substeps of a zonal sweep of one row of one layer by W fluxes, positive eastward, before it is made, to be seen and then given to zonal_with_count.
    ///
    /// It gives a [`CountedZonal`] with the number of substeps that the sweep takes, 1 to 16.
    ///
    /// Refusals, in order: 1 2 3 4 21 22 5 8 9.
    pub fn count_zonal(&self, layer: u32, row: u32, fluxes: &[i32]) -> Result<CountedZonal, Refusal> {
        let substeps = raw::count_zonal(self.grid, &self.air, &self.tracers, &self.ledger, layer, row, fluxes)?;
        Ok(CountedZonal { layer, row, fluxes: fluxes.to_vec(), substeps })
    }

    /// Makes the sweep of zonal, if the given count is the one that count_zonal gives for the same layer, row and fluxes now; with any other count it is refused with 20.
    ///
    /// It gives the count in `counted`.
    ///
    /// Refusals, in order: 1 2 3 4 21 22 5 8 9 20.
    pub fn zonal_with_count(&mut self, counted: &CountedZonal) -> Result<u32, Refusal> {
        raw::zonal_with_count(self.grid, &mut self.air, &mut self.tracers, &self.ledger, counted.layer, counted.row, counted.substeps, &counted.fluxes)
    }

    /// Sweeps one row of one layer by W fluxes, positive eastward, without substeps: a face takes whole cells and then a part of the next. Its amounts are not those of zonal.
    ///
    /// Refusals, in order: 1 2 3 4 21 22 5 8 16 17.
    pub fn long_zonal(&mut self, layer: u32, row: u32, fluxes: &[i32]) -> Result<(), Refusal> {
        raw::long_zonal(self.grid, &mut self.air, &mut self.tracers, &self.ledger, layer, row, fluxes)?;
        Ok(())
    }

    /// Sweeps one layer by W*(R + 1) fluxes, positive northward.
    ///
    /// It gives the number of substeps, 1.
    ///
    /// Refusals, in order: 1 2 3 4 21 22 5 8 10.
    pub fn meridional(&mut self, layer: u32, fluxes: &[i32]) -> Result<u32, Refusal> {
        raw::meridional(self.grid, &mut self.air, &mut self.tracers, &self.ledger, layer, fluxes)
    }

    /// Remaps all columns to the edges of a table of K + 1 pairs a, b, lent as 2*(K + 1) numbers. Makes at most 2*K steps for each column and tracer, in all at most the grid's most_remap_steps. Section 6 of the guide writes a count out by hand.
    ///
    /// It gives exactly the number of pairs of an old and a new layer that share some air, summed over columns.
    ///
    /// Refusals, in order: 1 2 3 4 21 22 11 12.
    pub fn remap(&mut self, table: &[u32]) -> Result<u32, Refusal> {
        raw::remap(self.grid, &mut self.air, &mut self.tracers, &self.ledger, table)
    }

    /// Reads the total of one tracer. As every call but a load it tests the books of all tracers: if it is accepted, the total of each is what its book has as loaded + emitted - withdrawn.
    ///
    /// It gives the total of the tracer.
    ///
    /// Refusals, in order: 1 2 3 4 22 5.
    pub fn total(&self, tracer: u32) -> Result<u32, Refusal> {
        raw::total(self.grid, &self.air, &self.tracers, &self.ledger, tracer)
    }

    /// Reads one cell of one tracer. Cells are numbered over all layers.
    ///
    /// It gives the amount in the cell.
    ///
    /// Refusals, in order: 1 2 3 4 22 5.
    pub fn cell(&self, tracer: u32, cell: u32) -> Result<u32, Refusal> {
        raw::cell(self.grid, &self.air, &self.tracers, &self.ledger, tracer, cell)
    }

    /// Lets an emitter stand for one tracer: in each tick it gives so many units to the cell. Any number is an id, and each tracer has its own. Cells are numbered over all layers.
    ///
    /// Refusals, in order: 1 2 3 4 22 5 18.
    pub fn add_emitter(&mut self, tracer: u32, cell: u32, id: u32, units: u32) -> Result<(), Refusal> {
        raw::add_emitter(self.grid, &self.air, &self.tracers, &mut self.ledger, tracer, cell, id, units)?;
        Ok(())
    }

    /// Removes the emitter that one tracer has under the id. The tracer's last emitter takes its place in the ledger.
    ///
    /// Refusals, in order: 1 2 3 4 22 5 19.
    pub fn remove_emitter(&mut self, tracer: u32, id: u32) -> Result<(), Refusal> {
        raw::remove_emitter(self.grid, &self.air, &self.tracers, &mut self.ledger, tracer, id)?;
        Ok(())
    }

    /// Adds the units of every emitter of one tracer to its cell, and to what its book has as emitted, or, if it is refused, of none.
    ///
    /// Refusals, in order: 1 2 3 4 22 5 6.
    pub fn tick(&mut self, tracer: u32) -> Result<(), Refusal> {
        raw::tick(self.grid, &self.air, &mut self.tracers, &mut self.ledger, tracer)?;
        Ok(())
    }

    /// Reads how much a tick of one tracer emits.
    ///
    /// It gives the units that the tracer's emitters give in a tick.
    ///
    /// Refusals, in order: 1 2 3 4 22 5.
    pub fn units_a_tick(&self, tracer: u32) -> Result<u64, Refusal> {
        raw::units_a_tick(self.grid, &self.air, &self.tracers, &self.ledger, tracer)
    }

    /// Chooses the limiter of one tracer: 1 the present one, 2 the positive one, 3 the fixed one between lo and hi, which are mixing ratios (units of gas for one of air) times the scale, 262144. The bounds are stored with every limiter, and only 3 reads them; give 0 and 0 with 1 and 2. Holds until the next set_limiter of this tracer or the next load.
    ///
    /// Refusals, in order: 1 2 3 4 22 5 21.
    pub fn set_limiter(&mut self, tracer: u32, limiter: Limiter) -> Result<(), Refusal> {
        raw::set_limiter(self.grid, &self.air, &self.tracers, &mut self.ledger, tracer, limiter.numbers().0, limiter.numbers().1, limiter.numbers().2)?;
        Ok(())
    }

    /// Why the call is refused in this world, in words; ask after the refusal, before the world changes.
    pub fn why_emission(&self, tracer: u32, cell: u32, amount: u32) -> String {
        let world = self.lent();
        // SAFETY: each pointer goes with its list's length, and nothing but the text is written.
        words(|text, size| unsafe { puldeho_why_emission(&world, tracer, cell, amount, text, size) })
    }

    /// Why the call is refused in this world, in words; ask after the refusal, before the world changes.
    pub fn why_withdrawal(&self, tracer: u32, cell: u32, amount: u32) -> String {
        let world = self.lent();
        // SAFETY: each pointer goes with its list's length, and nothing but the text is written.
        words(|text, size| unsafe { puldeho_why_withdrawal(&world, tracer, cell, amount, text, size) })
    }

    /// Why the call is refused in this world, in words; ask after the refusal, before the world changes.
    pub fn why_zonal(&self, layer: u32, row: u32, fluxes: &[i32]) -> String {
        let world = self.lent();
        // SAFETY: each pointer goes with its list's length, and nothing but the text is written.
        words(|text, size| unsafe { puldeho_why_zonal(&world, layer, row, fluxes.as_ptr(), fluxes.len(), text, size) })
    }

    /// Why the call is refused in this world, in words; ask after the refusal, before the world changes.
    pub fn why_count_zonal(&self, layer: u32, row: u32, fluxes: &[i32]) -> String {
        let world = self.lent();
        // SAFETY: each pointer goes with its list's length, and nothing but the text is written.
        words(|text, size| unsafe { puldeho_why_count_zonal(&world, layer, row, fluxes.as_ptr(), fluxes.len(), text, size) })
    }

    /// Why the call is refused in this world, in words; ask after the refusal, before the world changes.
    pub fn why_zonal_with_count(&self, counted: &CountedZonal) -> String {
        let world = self.lent();
        // SAFETY: each pointer goes with its list's length, and nothing but the text is written.
        words(|text, size| unsafe { puldeho_why_zonal_with_count(&world, counted.layer, counted.row, counted.substeps, counted.fluxes.as_ptr(), counted.fluxes.len(), text, size) })
    }

    /// Why the call is refused in this world, in words; ask after the refusal, before the world changes.
    pub fn why_long_zonal(&self, layer: u32, row: u32, fluxes: &[i32]) -> String {
        let world = self.lent();
        // SAFETY: each pointer goes with its list's length, and nothing but the text is written.
        words(|text, size| unsafe { puldeho_why_long_zonal(&world, layer, row, fluxes.as_ptr(), fluxes.len(), text, size) })
    }

    /// Why the call is refused in this world, in words; ask after the refusal, before the world changes.
    pub fn why_meridional(&self, layer: u32, fluxes: &[i32]) -> String {
        let world = self.lent();
        // SAFETY: each pointer goes with its list's length, and nothing but the text is written.
        words(|text, size| unsafe { puldeho_why_meridional(&world, layer, fluxes.as_ptr(), fluxes.len(), text, size) })
    }

    /// Why the call is refused in this world, in words; ask after the refusal, before the world changes.
    pub fn why_remap(&self, table: &[u32]) -> String {
        let world = self.lent();
        // SAFETY: each pointer goes with its list's length, and nothing but the text is written.
        words(|text, size| unsafe { puldeho_why_remap(&world, table.as_ptr(), table.len(), text, size) })
    }

    /// Why the call is refused in this world, in words; ask after the refusal, before the world changes.
    pub fn why_total(&self, tracer: u32) -> String {
        let world = self.lent();
        // SAFETY: each pointer goes with its list's length, and nothing but the text is written.
        words(|text, size| unsafe { puldeho_why_total(&world, tracer, text, size) })
    }

    /// Why the call is refused in this world, in words; ask after the refusal, before the world changes.
    pub fn why_cell(&self, tracer: u32, cell: u32) -> String {
        let world = self.lent();
        // SAFETY: each pointer goes with its list's length, and nothing but the text is written.
        words(|text, size| unsafe { puldeho_why_cell(&world, tracer, cell, text, size) })
    }

    /// Why the call is refused in this world, in words; ask after the refusal, before the world changes.
    pub fn why_add_emitter(&self, tracer: u32, cell: u32, id: u32, units: u32) -> String {
        let world = self.lent();
        // SAFETY: each pointer goes with its list's length, and nothing but the text is written.
        words(|text, size| unsafe { puldeho_why_add_emitter(&world, tracer, cell, id, units, text, size) })
    }

    /// Why the call is refused in this world, in words; ask after the refusal, before the world changes.
    pub fn why_remove_emitter(&self, tracer: u32, id: u32) -> String {
        let world = self.lent();
        // SAFETY: each pointer goes with its list's length, and nothing but the text is written.
        words(|text, size| unsafe { puldeho_why_remove_emitter(&world, tracer, id, text, size) })
    }

    /// Why the call is refused in this world, in words; ask after the refusal, before the world changes.
    pub fn why_tick(&self, tracer: u32) -> String {
        let world = self.lent();
        // SAFETY: each pointer goes with its list's length, and nothing but the text is written.
        words(|text, size| unsafe { puldeho_why_tick(&world, tracer, text, size) })
    }

    /// Why the call is refused in this world, in words; ask after the refusal, before the world changes.
    pub fn why_units_a_tick(&self, tracer: u32) -> String {
        let world = self.lent();
        // SAFETY: each pointer goes with its list's length, and nothing but the text is written.
        words(|text, size| unsafe { puldeho_why_units_a_tick(&world, tracer, text, size) })
    }

    /// Why the call is refused in this world, in words; ask after the refusal, before the world changes.
    pub fn why_set_limiter(&self, tracer: u32, limiter: Limiter) -> String {
        let world = self.lent();
        // SAFETY: each pointer goes with its list's length, and nothing but the text is written.
        words(|text, size| unsafe { puldeho_why_set_limiter(&world, tracer, limiter.numbers().0, limiter.numbers().1, limiter.numbers().2, text, size) })
    }
}

/// A zonal sweep that was counted and not made: its layer, row and fluxes, and the substeps that it takes. [`World::count_zonal`] makes it, and [`World::zonal_with_count`] takes it.
#[derive(Clone, Debug, PartialEq, Eq)]
#[must_use = "the sweep was counted and is not made"]
pub struct CountedZonal {
    layer: u32,
    row: u32,
    fluxes: Vec<i32>,
    substeps: u32,
}

impl CountedZonal {
    /// As given to count_zonal.
    pub fn layer(&self) -> u32 {
        self.layer
    }

    /// As given to count_zonal.
    pub fn row(&self) -> u32 {
        self.row
    }

    /// As given to count_zonal.
    pub fn fluxes(&self) -> &[i32] {
        &self.fluxes
    }

    /// The number of substeps that the sweep takes, 1 to 16.
    pub fn substeps(&self) -> u32 {
        self.substeps
    }
}

/// The calls over lists that the caller keeps and lends, each with the grid: any numbers and lengths are answered.
/// A later version may lend further lists; programs over [`World`] do not change then.
pub mod raw {
    use super::{outcome, wide_outcome, Grid, Refusal};

    extern "C" {
        fn puldeho_raw_load(
            w: u32, r: u32, k: u32, n: u32,
            air: *const u32, air_length: usize,
            tracers: *const u32, tracers_length: usize,
            ledger: *mut u32, ledger_length: usize,
        ) -> u64;
        fn puldeho_raw_emission(
            w: u32, r: u32, k: u32, n: u32,
            air: *const u32, air_length: usize,
            tracers: *mut u32, tracers_length: usize,
            ledger: *mut u32, ledger_length: usize,
            tracer: u32,
            cell: u32,
            amount: u32,
        ) -> u64;
        fn puldeho_raw_withdrawal(
            w: u32, r: u32, k: u32, n: u32,
            air: *const u32, air_length: usize,
            tracers: *mut u32, tracers_length: usize,
            ledger: *mut u32, ledger_length: usize,
            tracer: u32,
            cell: u32,
            amount: u32,
        ) -> u64;
        fn puldeho_raw_zonal(
            w: u32, r: u32, k: u32, n: u32,
            air: *mut u32, air_length: usize,
            tracers: *mut u32, tracers_length: usize,
            ledger: *const u32, ledger_length: usize,
            layer: u32,
            row: u32,
            fluxes: *const i32, fluxes_length: usize,
        ) -> u64;
        fn puldeho_raw_count_zonal(
            w: u32, r: u32, k: u32, n: u32,
            air: *const u32, air_length: usize,
            tracers: *const u32, tracers_length: usize,
            ledger: *const u32, ledger_length: usize,
            layer: u32,
            row: u32,
            fluxes: *const i32, fluxes_length: usize,
        ) -> u64;
        fn puldeho_raw_zonal_with_count(
            w: u32, r: u32, k: u32, n: u32,
            air: *mut u32, air_length: usize,
            tracers: *mut u32, tracers_length: usize,
            ledger: *const u32, ledger_length: usize,
            layer: u32,
            row: u32,
            given: u32,
            fluxes: *const i32, fluxes_length: usize,
        ) -> u64;
        fn puldeho_raw_long_zonal(
            w: u32, r: u32, k: u32, n: u32,
            air: *mut u32, air_length: usize,
            tracers: *mut u32, tracers_length: usize,
            ledger: *const u32, ledger_length: usize,
            layer: u32,
            row: u32,
            fluxes: *const i32, fluxes_length: usize,
        ) -> u64;
        fn puldeho_raw_meridional(
            w: u32, r: u32, k: u32, n: u32,
            air: *mut u32, air_length: usize,
            tracers: *mut u32, tracers_length: usize,
            ledger: *const u32, ledger_length: usize,
            layer: u32,
            fluxes: *const i32, fluxes_length: usize,
        ) -> u64;
        fn puldeho_raw_remap(
            w: u32, r: u32, k: u32, n: u32,
            air: *mut u32, air_length: usize,
            tracers: *mut u32, tracers_length: usize,
            ledger: *const u32, ledger_length: usize,
            table: *const u32, table_length: usize,
        ) -> u64;
        fn puldeho_raw_total(
            w: u32, r: u32, k: u32, n: u32,
            air: *const u32, air_length: usize,
            tracers: *const u32, tracers_length: usize,
            ledger: *const u32, ledger_length: usize,
            tracer: u32,
        ) -> u64;
        fn puldeho_raw_cell(
            w: u32, r: u32, k: u32, n: u32,
            air: *const u32, air_length: usize,
            tracers: *const u32, tracers_length: usize,
            ledger: *const u32, ledger_length: usize,
            tracer: u32,
            cell: u32,
        ) -> u64;
        fn puldeho_raw_add_emitter(
            w: u32, r: u32, k: u32, n: u32,
            air: *const u32, air_length: usize,
            tracers: *const u32, tracers_length: usize,
            ledger: *mut u32, ledger_length: usize,
            tracer: u32,
            cell: u32,
            id: u32,
            units: u32,
        ) -> u64;
        fn puldeho_raw_remove_emitter(
            w: u32, r: u32, k: u32, n: u32,
            air: *const u32, air_length: usize,
            tracers: *const u32, tracers_length: usize,
            ledger: *mut u32, ledger_length: usize,
            tracer: u32,
            id: u32,
        ) -> u64;
        fn puldeho_raw_tick(
            w: u32, r: u32, k: u32, n: u32,
            air: *const u32, air_length: usize,
            tracers: *mut u32, tracers_length: usize,
            ledger: *mut u32, ledger_length: usize,
            tracer: u32,
        ) -> u64;
        fn puldeho_raw_units_a_tick(
            w: u32, r: u32, k: u32, n: u32,
            air: *const u32, air_length: usize,
            tracers: *const u32, tracers_length: usize,
            ledger: *const u32, ledger_length: usize,
            tracer: u32,
        ) -> u32;
        fn puldeho_raw_units_a_tick_number(
            w: u32, r: u32, k: u32, n: u32,
            air: *const u32, air_length: usize,
            tracers: *const u32, tracers_length: usize,
            ledger: *const u32, ledger_length: usize,
            tracer: u32,
        ) -> u64;
        fn puldeho_raw_set_limiter(
            w: u32, r: u32, k: u32, n: u32,
            air: *const u32, air_length: usize,
            tracers: *const u32, tracers_length: usize,
            ledger: *mut u32, ledger_length: usize,
            tracer: u32,
            limiter: u32,
            lo: u64,
            hi: u64,
        ) -> u64;
}

    /// Tests the grid and the lists air and tracers, which are the world from then on, and changes no number in them. Leaves no emitter standing, gives every tracer limiter 1 with both bounds 0, and begins its book: its total as loaded, 0 as emitted and as withdrawn. It writes the whole ledger and does not look at what stood there.
    ///
    /// Count: 0. Refusals, in order: 1 2 3 4.
    pub fn load(
        grid: Grid,
        air: &[u32],
        tracers: &[u32],
        ledger: &mut [u32],
    ) -> Result<u32, Refusal> {
        // SAFETY: each pointer goes with its slice's length, and the borrows keep all others from what is written.
        outcome(unsafe {
            puldeho_raw_load(
                grid.w, grid.r, grid.k, grid.n,
                air.as_ptr(), air.len(),
                tracers.as_ptr(), tracers.len(),
                ledger.as_mut_ptr(), ledger.len(),
            )
        })
    }

    /// Adds amount to one cell of one tracer, and to what its book has as emitted. Cells are numbered over all layers.
    ///
    /// Count: 0. Refusals, in order: 1 2 3 4 22 5 6.
    pub fn emission(
        grid: Grid,
        air: &[u32],
        tracers: &mut [u32],
        ledger: &mut [u32],
        tracer: u32,
        cell: u32,
        amount: u32,
    ) -> Result<u32, Refusal> {
        // SAFETY: each pointer goes with its slice's length, and the borrows keep all others from what is written.
        outcome(unsafe {
            puldeho_raw_emission(
                grid.w, grid.r, grid.k, grid.n,
                air.as_ptr(), air.len(),
                tracers.as_mut_ptr(), tracers.len(),
                ledger.as_mut_ptr(), ledger.len(),
                tracer,
                cell,
                amount,
            )
        })
    }

    /// Takes amount from one cell of one tracer, and adds it to what its book has as withdrawn. Cells are numbered over all layers.
    ///
    /// Count: 0. Refusals, in order: 1 2 3 4 22 5 7.
    pub fn withdrawal(
        grid: Grid,
        air: &[u32],
        tracers: &mut [u32],
        ledger: &mut [u32],
        tracer: u32,
        cell: u32,
        amount: u32,
    ) -> Result<u32, Refusal> {
        // SAFETY: each pointer goes with its slice's length, and the borrows keep all others from what is written.
        outcome(unsafe {
            puldeho_raw_withdrawal(
                grid.w, grid.r, grid.k, grid.n,
                air.as_ptr(), air.len(),
                tracers.as_mut_ptr(), tracers.len(),
                ledger.as_mut_ptr(), ledger.len(),
                tracer,
                cell,
                amount,
            )
        })
    }

    /// Sweeps one row of one layer by W fluxes, positive eastward.
    ///
    /// Count: the number of substeps, 1 to 16. Refusals, in order: 1 2 3 4 21 22 5 8 9.
    pub fn zonal(
        grid: Grid,
        air: &mut [u32],
        tracers: &mut [u32],
        ledger: &[u32],
        layer: u32,
        row: u32,
        fluxes: &[i32],
    ) -> Result<u32, Refusal> {
        // SAFETY: each pointer goes with its slice's length, and the borrows keep all others from what is written.
        outcome(unsafe {
            puldeho_raw_zonal(
                grid.w, grid.r, grid.k, grid.n,
                air.as_mut_ptr(), air.len(),
                tracers.as_mut_ptr(), tracers.len(),
                ledger.as_ptr(), ledger.len(),
                layer,
                row,
                fluxes.as_ptr(), fluxes.len(),
            )
        })
    }

    /// Counts the substeps of a zonal sweep of one row of one layer by W fluxes, positive eastward, before it is made, to be seen and then given to zonal_with_count.
    ///
    /// Count: the number of substeps that the sweep takes, 1 to 16. Refusals, in order: 1 2 3 4 21 22 5 8 9.
    pub fn count_zonal(
        grid: Grid,
        air: &[u32],
        tracers: &[u32],
        ledger: &[u32],
        layer: u32,
        row: u32,
        fluxes: &[i32],
    ) -> Result<u32, Refusal> {
        // SAFETY: each pointer goes with its slice's length, and the borrows keep all others from what is written.
        outcome(unsafe {
            puldeho_raw_count_zonal(
                grid.w, grid.r, grid.k, grid.n,
                air.as_ptr(), air.len(),
                tracers.as_ptr(), tracers.len(),
                ledger.as_ptr(), ledger.len(),
                layer,
                row,
                fluxes.as_ptr(), fluxes.len(),
            )
        })
    }

    /// Makes the sweep of zonal, if the given count is the one that count_zonal gives for the same layer, row and fluxes now; with any other count it is refused with 20.
    ///
    /// Count: the given count. Refusals, in order: 1 2 3 4 21 22 5 8 9 20.
    pub fn zonal_with_count(
        grid: Grid,
        air: &mut [u32],
        tracers: &mut [u32],
        ledger: &[u32],
        layer: u32,
        row: u32,
        given: u32,
        fluxes: &[i32],
    ) -> Result<u32, Refusal> {
        // SAFETY: each pointer goes with its slice's length, and the borrows keep all others from what is written.
        outcome(unsafe {
            puldeho_raw_zonal_with_count(
                grid.w, grid.r, grid.k, grid.n,
                air.as_mut_ptr(), air.len(),
                tracers.as_mut_ptr(), tracers.len(),
                ledger.as_ptr(), ledger.len(),
                layer,
                row,
                given,
                fluxes.as_ptr(), fluxes.len(),
            )
        })
    }

    /// Sweeps one row of one layer by W fluxes, positive eastward, without substeps: a face takes whole cells and then a part of the next. Its amounts are not those of zonal.
    ///
    /// Count: 0. Refusals, in order: 1 2 3 4 21 22 5 8 16 17.
    pub fn long_zonal(
        grid: Grid,
        air: &mut [u32],
        tracers: &mut [u32],
        ledger: &[u32],
        layer: u32,
        row: u32,
        fluxes: &[i32],
    ) -> Result<u32, Refusal> {
        // SAFETY: each pointer goes with its slice's length, and the borrows keep all others from what is written.
        outcome(unsafe {
            puldeho_raw_long_zonal(
                grid.w, grid.r, grid.k, grid.n,
                air.as_mut_ptr(), air.len(),
                tracers.as_mut_ptr(), tracers.len(),
                ledger.as_ptr(), ledger.len(),
                layer,
                row,
                fluxes.as_ptr(), fluxes.len(),
            )
        })
    }

    /// Sweeps one layer by W*(R + 1) fluxes, positive northward.
    ///
    /// Count: the number of substeps, 1. Refusals, in order: 1 2 3 4 21 22 5 8 10.
    pub fn meridional(
        grid: Grid,
        air: &mut [u32],
        tracers: &mut [u32],
        ledger: &[u32],
        layer: u32,
        fluxes: &[i32],
    ) -> Result<u32, Refusal> {
        // SAFETY: each pointer goes with its slice's length, and the borrows keep all others from what is written.
        outcome(unsafe {
            puldeho_raw_meridional(
                grid.w, grid.r, grid.k, grid.n,
                air.as_mut_ptr(), air.len(),
                tracers.as_mut_ptr(), tracers.len(),
                ledger.as_ptr(), ledger.len(),
                layer,
                fluxes.as_ptr(), fluxes.len(),
            )
        })
    }

    /// Remaps all columns to the edges of a table of K + 1 pairs a, b, lent as 2*(K + 1) numbers. Makes at most 2*K steps for each column and tracer, in all at most the grid's most_remap_steps. Section 6 of the guide writes a count out by hand.
    ///
    /// Count: exactly the number of pairs of an old and a new layer that share some air, summed over columns. Refusals, in order: 1 2 3 4 21 22 11 12.
    pub fn remap(
        grid: Grid,
        air: &mut [u32],
        tracers: &mut [u32],
        ledger: &[u32],
        table: &[u32],
    ) -> Result<u32, Refusal> {
        // SAFETY: each pointer goes with its slice's length, and the borrows keep all others from what is written.
        outcome(unsafe {
            puldeho_raw_remap(
                grid.w, grid.r, grid.k, grid.n,
                air.as_mut_ptr(), air.len(),
                tracers.as_mut_ptr(), tracers.len(),
                ledger.as_ptr(), ledger.len(),
                table.as_ptr(), table.len(),
            )
        })
    }

    /// Reads the total of one tracer. As every call but a load it tests the books of all tracers: if it is accepted, the total of each is what its book has as loaded + emitted - withdrawn.
    ///
    /// Count: the total of the tracer. Refusals, in order: 1 2 3 4 22 5.
    pub fn total(
        grid: Grid,
        air: &[u32],
        tracers: &[u32],
        ledger: &[u32],
        tracer: u32,
    ) -> Result<u32, Refusal> {
        // SAFETY: each pointer goes with its slice's length, and the borrows keep all others from what is written.
        outcome(unsafe {
            puldeho_raw_total(
                grid.w, grid.r, grid.k, grid.n,
                air.as_ptr(), air.len(),
                tracers.as_ptr(), tracers.len(),
                ledger.as_ptr(), ledger.len(),
                tracer,
            )
        })
    }

    /// Reads one cell of one tracer. Cells are numbered over all layers.
    ///
    /// Count: the amount in the cell. Refusals, in order: 1 2 3 4 22 5.
    pub fn cell(
        grid: Grid,
        air: &[u32],
        tracers: &[u32],
        ledger: &[u32],
        tracer: u32,
        cell: u32,
    ) -> Result<u32, Refusal> {
        // SAFETY: each pointer goes with its slice's length, and the borrows keep all others from what is written.
        outcome(unsafe {
            puldeho_raw_cell(
                grid.w, grid.r, grid.k, grid.n,
                air.as_ptr(), air.len(),
                tracers.as_ptr(), tracers.len(),
                ledger.as_ptr(), ledger.len(),
                tracer,
                cell,
            )
        })
    }

    /// Lets an emitter stand for one tracer: in each tick it gives so many units to the cell. Any number is an id, and each tracer has its own. Cells are numbered over all layers.
    ///
    /// Count: 0. Refusals, in order: 1 2 3 4 22 5 18.
    pub fn add_emitter(
        grid: Grid,
        air: &[u32],
        tracers: &[u32],
        ledger: &mut [u32],
        tracer: u32,
        cell: u32,
        id: u32,
        units: u32,
    ) -> Result<u32, Refusal> {
        // SAFETY: each pointer goes with its slice's length, and the borrows keep all others from what is written.
        outcome(unsafe {
            puldeho_raw_add_emitter(
                grid.w, grid.r, grid.k, grid.n,
                air.as_ptr(), air.len(),
                tracers.as_ptr(), tracers.len(),
                ledger.as_mut_ptr(), ledger.len(),
                tracer,
                cell,
                id,
                units,
            )
        })
    }

    /// Removes the emitter that one tracer has under the id. The tracer's last emitter takes its place in the ledger.
    ///
    /// Count: 0. Refusals, in order: 1 2 3 4 22 5 19.
    pub fn remove_emitter(
        grid: Grid,
        air: &[u32],
        tracers: &[u32],
        ledger: &mut [u32],
        tracer: u32,
        id: u32,
    ) -> Result<u32, Refusal> {
        // SAFETY: each pointer goes with its slice's length, and the borrows keep all others from what is written.
        outcome(unsafe {
            puldeho_raw_remove_emitter(
                grid.w, grid.r, grid.k, grid.n,
                air.as_ptr(), air.len(),
                tracers.as_ptr(), tracers.len(),
                ledger.as_mut_ptr(), ledger.len(),
                tracer,
                id,
            )
        })
    }

    /// Adds the units of every emitter of one tracer to its cell, and to what its book has as emitted, or, if it is refused, of none.
    ///
    /// Count: 0. Refusals, in order: 1 2 3 4 22 5 6.
    pub fn tick(
        grid: Grid,
        air: &[u32],
        tracers: &mut [u32],
        ledger: &mut [u32],
        tracer: u32,
    ) -> Result<u32, Refusal> {
        // SAFETY: each pointer goes with its slice's length, and the borrows keep all others from what is written.
        outcome(unsafe {
            puldeho_raw_tick(
                grid.w, grid.r, grid.k, grid.n,
                air.as_ptr(), air.len(),
                tracers.as_mut_ptr(), tracers.len(),
                ledger.as_mut_ptr(), ledger.len(),
                tracer,
            )
        })
    }

    /// Reads how much a tick of one tracer emits.
    ///
    /// Count: the units that the tracer's emitters give in a tick. Refusals, in order: 1 2 3 4 22 5.
    pub fn units_a_tick(
        grid: Grid,
        air: &[u32],
        tracers: &[u32],
        ledger: &[u32],
        tracer: u32,
    ) -> Result<u64, Refusal> {
        // SAFETY: each pointer goes with its slice's length, and the borrows keep all others from what is written.
        wide_outcome(unsafe {
            puldeho_raw_units_a_tick(
                grid.w, grid.r, grid.k, grid.n,
                air.as_ptr(), air.len(),
                tracers.as_ptr(), tracers.len(),
                ledger.as_ptr(), ledger.len(),
                tracer,
            )
        }, unsafe {
            puldeho_raw_units_a_tick_number(
                grid.w, grid.r, grid.k, grid.n,
                air.as_ptr(), air.len(),
                tracers.as_ptr(), tracers.len(),
                ledger.as_ptr(), ledger.len(),
                tracer,
            )
        })
    }

    /// Chooses the limiter of one tracer: 1 the present one, 2 the positive one, 3 the fixed one between lo and hi, which are mixing ratios (units of gas for one of air) times the scale, 262144. The bounds are stored with every limiter, and only 3 reads them; give 0 and 0 with 1 and 2. Holds until the next set_limiter of this tracer or the next load.
    ///
    /// Count: 0. Refusals, in order: 1 2 3 4 22 5 21.
    pub fn set_limiter(
        grid: Grid,
        air: &[u32],
        tracers: &[u32],
        ledger: &mut [u32],
        tracer: u32,
        limiter: u32,
        lo: u64,
        hi: u64,
    ) -> Result<u32, Refusal> {
        // SAFETY: each pointer goes with its slice's length, and the borrows keep all others from what is written.
        outcome(unsafe {
            puldeho_raw_set_limiter(
                grid.w, grid.r, grid.k, grid.n,
                air.as_ptr(), air.len(),
                tracers.as_ptr(), tracers.len(),
                ledger.as_mut_ptr(), ledger.len(),
                tracer,
                limiter,
                lo,
                hi,
            )
        })
    }
}
