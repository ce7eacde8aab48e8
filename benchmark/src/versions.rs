//! The versions that are compared: the proved library, plain C of gcc (twice), plain Rust.

use crate::books::{self, MOST_SUM};
use crate::ledgers::{after_load, BLOCK, EMITTERS};
use crate::limiters::AFTER_LOAD;
use crate::plain;
use crate::worlds::{in_range, MOST};
use reference::{Answer, Call, Grid, World};
use std::sync::OnceLock;

/// Makes a call.
pub type MakeCall = fn(&mut World, &Call) -> Answer;

/// How many places in memory the code of a version is linked at.
pub const PLACES: usize = 4;

pub struct Version {
    pub name: &'static str,
    calls: [MakeCall; PLACES],
    /// How many numbers of a tracer's block of the ledger the version knows: a library from before the ledger none, one from before the
    /// limiters those of the emitters, one from before the books these and the limiter's.
    known: fn() -> usize,
    /// The calls that a library from before has not, by name.
    lacks: &'static str,
}

impl Version {
    /// The call, from another place of the code in each round.
    pub fn call(&self, round: usize) -> MakeCall {
        self.calls[round % PLACES]
    }

    /// Makes the call once, lent the ledger that the version takes.
    pub fn make(&self, round: usize, world: &mut World, call: &Call) -> Answer {
        self.lend(world);
        let answer = self.call(round)(world, call);
        self.take_back(world);
        answer
    }

    /// Whether the version is lent a shorter ledger. One from before the ledger is lent none, and the world keeps the whole one.
    fn is_lent_less(&self) -> bool {
        (1..BLOCK).contains(&(self.known)())
    }

    /// The world with the ledger that the version takes.
    pub fn lend(&self, world: &mut World) {
        if self.is_lent_less() {
            let known = |block| block_part(block, (self.known)());
            world.ledger = world.ledger.chunks(BLOCK).flat_map(known).collect();
        }
    }

    /// The world with a whole ledger again; what the version does not know is 0 in it until it is taken over.
    pub fn take_back(&self, world: &mut World) {
        if self.is_lent_less() {
            let whole = |block| block_part(block, BLOCK);
            let blocks = world.ledger.chunks((self.known)());
            world.ledger = blocks.flat_map(whole).collect();
        }
    }

    /// Whether the version has the call.
    pub fn has(&self, call: &Call) -> bool {
        !self.lacks.split(' ').any(|name| name == name_of(call))
    }

    /// Whether no answer in this world depends on what the version does not know: the ledger has its length, the limiters are a load's, the
    /// books balance, and no sum is near its end.
    pub fn takes(&self, world: &World) -> bool {
        if self.has_books() {
            return true;
        }
        let length = BLOCK * world.grid.n as usize;
        let fits = !in_range(&world.grid) || world.ledger.len() == length;
        let mut blocks = world.ledger.chunks_exact(BLOCK);
        let as_loaded = |block: &[u32]| block[EMITTERS..books::PLACE] == AFTER_LOAD;
        let far = |sum: u64| sum <= MOST_SUM - MOST;
        let mut books = books::standing(world);
        fits && (self.has_limiters() || blocks.all(as_loaded))
            && books.all(|(it, total)| it.balances(total) && far(it.emitted) && far(it.withdrawn))
    }

    /// What is not compared is taken over from another world: what the version does not know of the ledger, and the amounts of gas of a
    /// version with another scale.
    pub fn take_over(&self, world: &mut World, other: &World) {
        let known = (self.known)();
        let blocks = world.ledger.chunks_exact_mut(BLOCK);
        for (block, from) in blocks.zip(other.ledger.chunks_exact(BLOCK)) {
            block[known..].copy_from_slice(&from[known..]);
        }
        if !self.has_librarys_scale() {
            world.tracers.clone_from(&other.tracers);
        }
    }

    /// A library from before version 0.8 has no books.
    pub fn has_books(&self) -> bool {
        (self.known)() == BLOCK
    }

    /// A library from before version 0.7 has no limiters.
    pub fn has_limiters(&self) -> bool {
        (self.known)() >= books::PLACE
    }

    /// Whether all that the version leaves is compared.
    pub fn is_compared_whole(&self) -> bool {
        self.has_books() && self.has_librarys_scale()
    }

    /// A library from before version 0.6 has another scale, 65,536.
    pub fn has_librarys_scale(&self) -> bool {
        self.gas_of_x1() == VERSIONS[0].gas_of_x1()
    }

    /// What the sweep of case x1 leaves, which tells the two scales apart.
    fn gas_of_x1(&self) -> Vec<u32> {
        let mut world = after_load(world_of_x1());
        let sweep = Call::Zonal {
            layer: 0,
            row: 0,
            fluxes: vec![421, 462, 475, 229],
        };
        self.make(0, &mut world, &sweep);
        world.tracers
    }
}

/// The world of case x1, without a ledger.
fn world_of_x1() -> World {
    World {
        grid: Grid {
            w: 4,
            r: 1,
            k: 1,
            n: 1,
        },
        air: vec![100, 928, 314, 81, 658, 100],
        tracers: vec![0, 221, 496, 522, 317, 0],
        ledger: Vec::new(),
    }
}

/// The first numbers of a block, with zeros where it has less.
fn block_part(block: &[u32], numbers: usize) -> Vec<u32> {
    let mut part = block.to_vec();
    part.resize(numbers, 0);
    part
}

/// The name of a call that some library from before lacks; none for the others.
fn name_of(call: &Call) -> &'static str {
    match call {
        Call::LongZonal { .. } => "long_zonal",
        Call::AddEmitter { .. } => "add_emitter",
        Call::RemoveEmitter { .. } => "remove_emitter",
        Call::Tick { .. } => "tick",
        Call::UnitsATick { .. } => "units_a_tick",
        Call::CountZonal { .. } => "count_zonal",
        Call::ZonalWithCount { .. } => "zonal_with_count",
        Call::SetLimiter { .. } => "set_limiter",
        _ => "-",
    }
}

/// What a call returns in C: answer · 2^32 + count.
fn returned(number: u64) -> Answer {
    Answer {
        number: (number >> 32) as u32,
        count: number & u64::from(u32::MAX),
    }
}

/// The raw calls of bindings/puldeho.h that are older than the ledger, under a prefix. The two names at the end are those of the
/// ledger's parameters; without them the calls are those of a library from before it.
#[rustfmt::skip]
macro_rules! c_calls {
    ($module:ident, $prefix:literal, $later:path $(, $ledger:ident $length:ident)?) => {
        mod $module {
            use super::returned;
            use reference::{Answer, Call, World};

            extern "C" {
                #[link_name = concat!($prefix, "_load")]
                fn load(w: u32, r: u32, k: u32, n: u32, air: *const u32, al: usize, gas: *const u32, gl: usize $(, $ledger: *mut u32, $length: usize)?) -> u64;
                #[link_name = concat!($prefix, "_total")]
                fn total(w: u32, r: u32, k: u32, n: u32, air: *const u32, al: usize, gas: *const u32, gl: usize $(, $ledger: *const u32, $length: usize)?, tracer: u32) -> u64;
                #[link_name = concat!($prefix, "_cell")]
                fn cell(w: u32, r: u32, k: u32, n: u32, air: *const u32, al: usize, gas: *const u32, gl: usize $(, $ledger: *const u32, $length: usize)?, tracer: u32, cell: u32) -> u64;
                #[link_name = concat!($prefix, "_emission")]
                fn emission(w: u32, r: u32, k: u32, n: u32, air: *const u32, al: usize, gas: *mut u32, gl: usize $(, $ledger: *mut u32, $length: usize)?, tracer: u32, cell: u32, amount: u32) -> u64;
                #[link_name = concat!($prefix, "_withdrawal")]
                fn withdrawal(w: u32, r: u32, k: u32, n: u32, air: *const u32, al: usize, gas: *mut u32, gl: usize $(, $ledger: *mut u32, $length: usize)?, tracer: u32, cell: u32, amount: u32) -> u64;
                #[link_name = concat!($prefix, "_zonal")]
                fn zonal(w: u32, r: u32, k: u32, n: u32, air: *mut u32, al: usize, gas: *mut u32, gl: usize $(, $ledger: *const u32, $length: usize)?, layer: u32, row: u32, fluxes: *const i32, fl: usize) -> u64;
                #[link_name = concat!($prefix, "_long_zonal")]
                fn long_zonal(w: u32, r: u32, k: u32, n: u32, air: *mut u32, al: usize, gas: *mut u32, gl: usize $(, $ledger: *const u32, $length: usize)?, layer: u32, row: u32, fluxes: *const i32, fl: usize) -> u64;
                #[link_name = concat!($prefix, "_meridional")]
                fn meridional(w: u32, r: u32, k: u32, n: u32, air: *mut u32, al: usize, gas: *mut u32, gl: usize $(, $ledger: *const u32, $length: usize)?, layer: u32, fluxes: *const i32, fl: usize) -> u64;
                #[link_name = concat!($prefix, "_remap")]
                fn remap(w: u32, r: u32, k: u32, n: u32, air: *mut u32, al: usize, gas: *mut u32, gl: usize $(, $ledger: *const u32, $length: usize)?, table: *const u32, tl: usize) -> u64;
            }

            pub fn call(world: &mut World, call: &Call) -> Answer {
                let (w, r, k, n) = (world.grid.w, world.grid.r, world.grid.k, world.grid.n);
                let (air, al) = (world.air.as_mut_ptr(), world.air.len());
                let (gas, gl) = (world.tracers.as_mut_ptr(), world.tracers.len());
                $(let ($ledger, $length) = (world.ledger.as_mut_ptr(), world.ledger.len());)?
                // SAFETY: each pointer goes with its list's length, and the lists are the caller's alone.
                returned(unsafe {
                    match call {
                        Call::Load => load(w, r, k, n, air, al, gas, gl $(, $ledger, $length)?),
                        Call::Total { tracer } => total(w, r, k, n, air, al, gas, gl $(, $ledger, $length)?, *tracer),
                        Call::Cell { tracer, cell: at } => cell(w, r, k, n, air, al, gas, gl $(, $ledger, $length)?, *tracer, *at),
                        Call::Emission { tracer, cell, amount } => emission(w, r, k, n, air, al, gas, gl $(, $ledger, $length)?, *tracer, *cell, *amount),
                        Call::Withdrawal { tracer, cell, amount } => withdrawal(w, r, k, n, air, al, gas, gl $(, $ledger, $length)?, *tracer, *cell, *amount),
                        Call::Zonal { layer, row, fluxes } => zonal(w, r, k, n, air, al, gas, gl $(, $ledger, $length)?, *layer, *row, fluxes.as_ptr(), fluxes.len()),
                        Call::LongZonal { layer, row, fluxes } => long_zonal(w, r, k, n, air, al, gas, gl $(, $ledger, $length)?, *layer, *row, fluxes.as_ptr(), fluxes.len()),
                        Call::Meridional { layer, fluxes } => meridional(w, r, k, n, air, al, gas, gl $(, $ledger, $length)?, *layer, fluxes.as_ptr(), fluxes.len()),
                        Call::Remap { table } => remap(w, r, k, n, air, al, gas, gl $(, $ledger, $length)?, table.as_ptr(), table.len()),
                        _ => return $later(world, call),
                    }
                })
            }
        }
    };
}

/// The raw calls that came with the ledger or after it, under a prefix. The reading of the units a tick is two: its answer, and,
/// where it is accepted, its number.
#[rustfmt::skip]
macro_rules! c_later_calls {
    ($module:ident, $prefix:literal) => {
        mod $module {
            use super::returned;
            use reference::{Answer, Call, World};

            extern "C" {
                #[link_name = concat!($prefix, "_add_emitter")]
                fn add_emitter(w: u32, r: u32, k: u32, n: u32, air: *const u32, al: usize, gas: *const u32, gl: usize, ledger: *mut u32, ll: usize, tracer: u32, cell: u32, id: u32, units: u32) -> u64;
                #[link_name = concat!($prefix, "_remove_emitter")]
                fn remove_emitter(w: u32, r: u32, k: u32, n: u32, air: *const u32, al: usize, gas: *const u32, gl: usize, ledger: *mut u32, ll: usize, tracer: u32, id: u32) -> u64;
                #[link_name = concat!($prefix, "_tick")]
                fn tick(w: u32, r: u32, k: u32, n: u32, air: *const u32, al: usize, gas: *mut u32, gl: usize, ledger: *mut u32, ll: usize, tracer: u32) -> u64;
                #[link_name = concat!($prefix, "_units_a_tick")]
                fn units_a_tick(w: u32, r: u32, k: u32, n: u32, air: *const u32, al: usize, gas: *const u32, gl: usize, ledger: *const u32, ll: usize, tracer: u32) -> u32;
                #[link_name = concat!($prefix, "_units_a_tick_number")]
                fn units_a_tick_number(w: u32, r: u32, k: u32, n: u32, air: *const u32, al: usize, gas: *const u32, gl: usize, ledger: *const u32, ll: usize, tracer: u32) -> u64;
                #[link_name = concat!($prefix, "_count_zonal")]
                fn count_zonal(w: u32, r: u32, k: u32, n: u32, air: *const u32, al: usize, gas: *const u32, gl: usize, ledger: *const u32, ll: usize, layer: u32, row: u32, fluxes: *const i32, fl: usize) -> u64;
                #[link_name = concat!($prefix, "_zonal_with_count")]
                fn zonal_with_count(w: u32, r: u32, k: u32, n: u32, air: *mut u32, al: usize, gas: *mut u32, gl: usize, ledger: *const u32, ll: usize, layer: u32, row: u32, given: u32, fluxes: *const i32, fl: usize) -> u64;
                #[link_name = concat!($prefix, "_set_limiter")]
                fn set_limiter(w: u32, r: u32, k: u32, n: u32, air: *const u32, al: usize, gas: *const u32, gl: usize, ledger: *mut u32, ll: usize, tracer: u32, limiter: u32, lo: u64, hi: u64) -> u64;
            }

            pub fn call(world: &mut World, call: &Call) -> Answer {
                let (w, r, k, n) = (world.grid.w, world.grid.r, world.grid.k, world.grid.n);
                let (air, al) = (world.air.as_mut_ptr(), world.air.len());
                let (gas, gl) = (world.tracers.as_mut_ptr(), world.tracers.len());
                let (ledger, ll) = (world.ledger.as_mut_ptr(), world.ledger.len());
                // SAFETY: each pointer goes with its list's length, and the lists are the caller's alone.
                unsafe {
                    match call {
                        Call::AddEmitter { tracer, cell, id, units } => returned(add_emitter(w, r, k, n, air, al, gas, gl, ledger, ll, *tracer, *cell, *id, *units)),
                        Call::RemoveEmitter { tracer, id } => returned(remove_emitter(w, r, k, n, air, al, gas, gl, ledger, ll, *tracer, *id)),
                        Call::Tick { tracer } => returned(tick(w, r, k, n, air, al, gas, gl, ledger, ll, *tracer)),
                        Call::UnitsATick { tracer } => {
                            let number = units_a_tick(w, r, k, n, air, al, gas, gl, ledger, ll, *tracer);
                            let accepted = number == 0;
                            let count = if accepted { units_a_tick_number(w, r, k, n, air, al, gas, gl, ledger, ll, *tracer) } else { 0 };
                            Answer { number, count }
                        }
                        Call::CountZonal { layer, row, fluxes } => returned(count_zonal(w, r, k, n, air, al, gas, gl, ledger, ll, *layer, *row, fluxes.as_ptr(), fluxes.len())),
                        Call::ZonalWithCount { layer, row, given, fluxes } => returned(zonal_with_count(w, r, k, n, air, al, gas, gl, ledger, ll, *layer, *row, *given, fluxes.as_ptr(), fluxes.len())),
                        Call::SetLimiter { tracer, limiter, lo, hi } => returned(set_limiter(w, r, k, n, air, al, gas, gl, ledger, ll, *tracer, *limiter, *lo, *hi)),
                        _ => unreachable!("{call:?} is older than the ledger"),
                    }
                }
            }
        }
    };
}

/// Every call, under a prefix.
macro_rules! all_c_calls {
    ($module:ident, $later:ident, $prefix:literal) => {
        c_later_calls!($later, $prefix);
        c_calls!($module, $prefix, super::$later::call, ledger ll);
    };
}

all_c_calls!(library0, library0_later, "library0");
all_c_calls!(library1, library1_later, "library1");
all_c_calls!(library2, library2_later, "library2");
all_c_calls!(library3, library3_later, "library3");
all_c_calls!(o3_0, o3_0_later, "o3_0");
all_c_calls!(o3_1, o3_1_later, "o3_1");
all_c_calls!(o3_2, o3_2_later, "o3_2");
all_c_calls!(o3_3, o3_3_later, "o3_3");

/// The calls of plain C, or of the library before.
#[cfg(not(before_without_ledger))]
macro_rules! native_calls {
    ($module:ident, $later:ident, $prefix:literal) => {
        all_c_calls!($module, $later, $prefix);
    };
}

#[cfg(before_without_ledger)]
macro_rules! native_calls {
    ($module:ident, $later:ident, $prefix:literal) => {
        c_calls!($module, $prefix, super::no_later_call);
    };
}

#[cfg(before_without_ledger)]
fn no_later_call(_: &mut World, call: &Call) -> Answer {
    unreachable!("the library before has no {call:?}")
}

native_calls!(native0, native0_later, "native0");
native_calls!(native1, native1_later, "native1");
native_calls!(native2, native2_later, "native2");
native_calls!(native3, native3_later, "native3");

#[rustfmt::skip]
fn rust(world: &mut World, call: &Call) -> Answer {
    let World { grid, air, tracers, ledger } = world;
    let grid = *grid;
    let outcome = match call {
        Call::Load => plain::load(grid, air, tracers, ledger),
        Call::Total { tracer } => plain::total(grid, air, tracers, ledger, *tracer),
        Call::Cell { tracer, cell } => plain::cell(grid, air, tracers, ledger, *tracer, *cell),
        Call::Emission { tracer, cell, amount } => plain::emission(grid, air, tracers, ledger, *tracer, *cell, *amount),
        Call::Withdrawal { tracer, cell, amount } => plain::withdrawal(grid, air, tracers, ledger, *tracer, *cell, *amount),
        Call::Zonal { layer, row, fluxes } => plain::zonal(grid, air, tracers, ledger, *layer, *row, fluxes),
        Call::CountZonal { layer, row, fluxes } => plain::count_zonal(grid, air, tracers, ledger, *layer, *row, fluxes),
        Call::ZonalWithCount { layer, row, given, fluxes } => plain::zonal_with_count(grid, air, tracers, ledger, [*layer, *row, *given], fluxes),
        Call::LongZonal { layer, row, fluxes } => plain::long_zonal(grid, air, tracers, ledger, *layer, *row, fluxes),
        Call::Meridional { layer, fluxes } => plain::meridional(grid, air, tracers, ledger, *layer, fluxes),
        Call::Remap { table } => plain::remap(grid, air, tracers, ledger, table),
        Call::AddEmitter { tracer, cell, id, units } => plain::add_emitter(grid, air, tracers, ledger, *tracer, [*id, *cell, *units]),
        Call::RemoveEmitter { tracer, id } => plain::remove_emitter(grid, air, tracers, ledger, *tracer, *id),
        Call::Tick { tracer } => plain::tick(grid, air, tracers, ledger, *tracer),
        Call::UnitsATick { tracer } => plain::units_a_tick(grid, air, tracers, ledger, *tracer),
        Call::SetLimiter { tracer, limiter, lo, hi } => plain::set_limiter(grid, air, tracers, ledger, [*tracer, *limiter], [*lo, *hi]),
    };
    match outcome {
        Ok(count) => Answer { number: 0, count },
        Err(number) => Answer { number, count: 0 },
    }
}

pub const COUNT: usize = 4;

/// What tools/benchmark found that the library before lacks, where it stands in the place of gcc -O3 -march=native.
const BEFORE_LACKS: &str = match option_env!("BEFORE_LACKS") {
    Some(names) => names,
    None => "",
};

/// How much of a block the library before knows, found by the length of the ledger with which it accepts a load.
fn known_before() -> usize {
    static FOUND: OnceLock<usize> = OnceLock::new();
    let accepts = |block: &usize| {
        let mut world = world_of_x1();
        world.ledger = vec![0; *block];
        native0::call(&mut world, &Call::Load).number == 0
    };
    let find = || [BLOCK, books::PLACE, EMITTERS].into_iter().find(accepts);
    *FOUND.get_or_init(|| {
        if cfg!(before_without_ledger) {
            return 0;
        }
        find().expect("a ledger that the library before takes")
    })
}

/// The library first; ratios are of its times to the others'. Plain Rust lies where the link puts it.
pub const VERSIONS: [Version; COUNT] = [
    Version {
        name: "library",
        calls: [
            library0::call,
            library1::call,
            library2::call,
            library3::call,
        ],
        known: || BLOCK,
        lacks: "",
    },
    Version {
        // tools/benchmark may link an earlier library here
        name: match option_env!("BEFORE") {
            Some(_) => "the library before",
            None => "gcc -O3 -march=native",
        },
        calls: [native0::call, native1::call, native2::call, native3::call],
        known: known_before,
        lacks: BEFORE_LACKS,
    },
    Version {
        name: "gcc -O3",
        calls: [o3_0::call, o3_1::call, o3_2::call, o3_3::call],
        known: || BLOCK,
        lacks: "",
    },
    Version {
        name: "Rust -O",
        calls: [rust; PLACES],
        known: || BLOCK,
        lacks: "",
    },
];

extern "C" {
    fn plain_read(numbers: *const u32, length: usize) -> u32;
}

/// A plain read of all numbers: their sum in 32 bits, by gcc -O3 -march=native.
pub fn read(numbers: &[u32]) -> u32 {
    // SAFETY: the pointer goes with its list's length, and nothing is written.
    unsafe { plain_read(numbers.as_ptr(), numbers.len()) }
}
