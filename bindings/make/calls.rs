// @MADE@

use crate::{outcome, wide_outcome, words, Grid};
use std::ffi::{c_char, c_int};

/// Bytes that are room enough for any text that says why a call is refused.
pub(crate) const WHY_SIZE: usize = @WHYSIZE@;

/// struct puldeho_world of the C header.
#[repr(C)]
struct CWorld {
    grid: Grid,
@CFIELDS@}

extern "C" {
@WHYEXTERNS@}

/// Does nothing, and is linked with the library of this version only: another one's functions may take other arguments.
pub(crate) fn same_version() {
    extern "C" {
        fn @ABI@();
    }
    // SAFETY: it takes nothing and does nothing.
    unsafe { @ABI@() }
}

/// The version of the library that this wrapper was made for.
pub const VERSION: &str = "@VERSION@";

@LIMITS@
@REFUSALS@
@LIMITERS@
/// How long the lists are that go with a grid, and bounds on what a call does.
impl Grid {@LENGTHS@@BOUNDS@}

/// A tracer's book: what was loaded, and what was emitted and withdrawn since then, in units. [`World::book`] gives it. The sums
/// have 32 bits in the ledger; here they can be added without a carry that is lost.
#[derive(Clone, Copy, Debug, PartialEq, Eq)]
pub struct Book {
    /// What the load found in all cells of the tracer.
    pub loaded: u64,
    /// What emissions and ticks have added since the load.
    pub emitted: u64,
    /// What withdrawals have taken since the load.
    pub withdrawn: u64,
}

/// A world that owns its lists, made by an accepted load, so that a later call is refused for its own arguments only.
/// Two are equal if all that they have is equal, also what a later version adds; to compare amounts, compare the lists.
#[derive(Clone, Debug, PartialEq, Eq)]
pub struct World {
    grid: Grid,
@FIELDS@}

impl World {
    /// Takes the lists as the world from now on, if the load is accepted.
    pub fn load(grid: Grid, @GIVEN@) -> Result<World, Refusal> {
        let @MUT@world = World { grid, @MADEOF@ };
        raw::load(grid, @LENT@)?;
        Ok(world)
    }

    /// Why a load of these lists is refused, in words.
    pub fn why_load(grid: Grid, @GIVEN@) -> String {
        let given = World { grid, @MADEOF@ };
        let world = given.lent();
        // SAFETY: each pointer goes with its list's length, and nothing but the text is written.
        words(|text, size| unsafe { puldeho_why_load(&world, text, size) })
    }

    /// The world as C has it.
    fn lent(&self) -> CWorld {
        CWorld {
            grid: self.grid,
@CVALUES@        }
    }

    /// The grid.
    pub fn grid(&self) -> Grid {
        self.grid
    }

    /// The book of a tracer, if the grid has the tracer. Reading does not test it; every call but a load does, as [`World::total`],
    /// for all tracers. As only calls write a world, none is refused with [`Refusal::Books`].
    pub fn book(&self, tracer: u32) -> Option<Book> {
        let block = self.ledger.chunks(LEDGER_BLOCK as usize).nth(tracer as usize)?;
        let sum = |place: usize| u64::from(block[@BOOKPLACE@ + place]);
        Some(Book { loaded: sum(0), emitted: sum(1), withdrawn: sum(2) })
    }

    /// The limiter that a tracer has now, if the grid has the tracer.
    pub fn limiter(&self, tracer: u32) -> Option<Limiter> {
        let block = self.ledger.chunks(LEDGER_BLOCK as usize).nth(tracer as usize)?;
        let wide = |place: usize| u64::from(block[place]) | u64::from(block[place + 1]) << 32;
        Limiter::standing(block[@LIMITERPLACE@], wide(@LIMITERPLACE@ + 1), wide(@LIMITERPLACE@ + 3))
    }
@READ@@METHODS@@WHYS@}
@PAIRS@
/// The calls over lists that the caller keeps and lends, each with the grid: any numbers and lengths are answered.
/// A later version may lend further lists; programs over [`World`] do not change then.
pub mod raw {
    use super::{outcome, wide_outcome, Grid, Refusal};

    extern "C" {
    @EXTERNS@}
@RAWS@}
