//! Seeded ledgers and calls on emitters: mostly sound records, some with one of the four faults, some ledgers of a wrong length.

use crate::books::{self, Book};
use crate::limiters;
use crate::worlds::{cells, in_range, index, sizes, Random, MOST};
use reference::{Call, World};

/// The emitters' numbers in a tracer's block: how many stand, their units a tick in two halves, 16 times id, cell, units.
pub const EMITTERS: usize = 51;
/// A tracer's block of the ledger: its emitters, then its limiter, then its book.
pub const BLOCK: usize = EMITTERS + limiters::NUMBERS + books::NUMBERS;

/// The world with the ledger that a load leaves.
pub fn after_load(mut world: World) -> World {
    let block = |total: u64| {
        let book = Book::of_load(total).numbers();
        [&[0; EMITTERS][..], &limiters::AFTER_LOAD, &book].concat()
    };
    world.ledger = books::totals(&world).into_iter().flat_map(block).collect();
    world
}

/// Ids at both ends, few enough that they are met again.
fn id(random: &mut Random) -> u32 {
    let small = random.below(24) as u32;
    if random.one_in(8) {
        u32::MAX - small
    } else {
        small
    }
}

/// Units that many ticks can emit, none, the largest, or about what a total can take.
fn units(random: &mut Random) -> u32 {
    match random.below(16) {
        0 => 0,
        1 => u32::MAX,
        2 => random.below(MOST + 2) as u32,
        _ => random.below(1_000) as u32,
    }
}

/// A sound record of a tracer. What comes after the standing emitters is 0, or any numbers.
fn sound_record(random: &mut Random, cells: u64) -> [u32; EMITTERS] {
    let mut block = [0; EMITTERS];
    let standing = [0, 1, 2, random.below(17), 15, 16][random.below(6) as usize] as usize;
    let first_id = id(random);
    let largest = random.one_in(12);
    let mut sum = 0;
    for (i, entry) in block[3..].chunks_exact_mut(3).enumerate() {
        if i < standing {
            let units = if largest { u32::MAX } else { units(random) };
            entry[0] = first_id.wrapping_add(i as u32);
            entry[1] = random.below(cells) as u32;
            entry[2] = units;
            sum += u64::from(units);
        }
    }
    if random.one_in(4) {
        let mut any = || [0, first_id, u32::MAX, random.next() as u32][random.below(4) as usize];
        block[3 + 3 * standing..].fill_with(&mut any);
    }
    block[0] = standing as u32;
    block[1] = sum as u32;
    block[2] = (sum >> 32) as u32;
    block
}

/// Breaks a record: too many, an absent cell, an id twice, a false sum in either half. A record of too few emitters stays.
fn fault(random: &mut Random, block: &mut [u32], cells: u64) {
    let standing = block[0] as usize;
    let entry = |random: &mut Random| 3 + 3 * random.below(standing as u64) as usize;
    match random.below(6) {
        0 => block[0] = [17, 18, u32::MAX][random.below(3) as usize],
        1 if standing > 0 => {
            let absent = [cells as u32, cells as u32 + 1, u32::MAX];
            block[entry(random) + 1] = absent[random.below(3) as usize];
        }
        2 | 3 if standing > 1 => block[entry(random)] = block[entry(random)],
        4 => block[1] = block[1].wrapping_add([1, u32::MAX][random.below(2) as usize]),
        5 => block[2] = [block[2].wrapping_add(1), 0][random.below(2) as usize],
        _ => {}
    }
}

/// Gives the world a ledger: none standing, sound records, one that is broken, or a wrong length.
pub fn lend(random: &mut Random, world: &mut World) {
    if !in_range(&world.grid) || random.one_in(6) {
        return;
    }
    let cells = cells(&world.grid);
    for block in world.ledger.chunks_exact_mut(BLOCK) {
        block[..EMITTERS].copy_from_slice(&sound_record(random, cells));
    }
    if random.one_in(6) {
        let broken = random.below(world.grid.n.into()) as usize;
        fault(random, &mut world.ledger[BLOCK * broken..][..BLOCK], cells);
    }
    if random.one_in(50) {
        let length = world.ledger.len();
        // The last two are the lengths that it had before the books, and before the limiters.
        let lengths = [
            0,
            length - BLOCK,
            length - 1,
            length + 1,
            length + BLOCK,
            length / BLOCK * books::PLACE,
            length / BLOCK * EMITTERS,
        ];
        world.ledger.resize(lengths[random.below(7) as usize], 0);
    }
}

/// An id that stands, mostly of this tracer, or any.
fn some_id(random: &mut Random, world: &World, tracer: u32) -> u32 {
    let of = if random.one_in(6) {
        random.below(8)
    } else {
        u64::from(tracer.min(8))
    };
    let block = world.ledger.get(BLOCK * of as usize..);
    let standing = block.and_then(|block| block.first()).copied().unwrap_or(0);
    let place = 3 + 3 * random.below(u64::from(standing.clamp(1, 16))) as usize;
    let found = block.and_then(|block| block.get(place)).copied();
    found.unwrap_or(7)
}

/// A call on the emitters.
pub fn call(random: &mut Random, world: &World) -> Call {
    let g = &world.grid;
    let (all, _) = sizes(g);
    let tracer = index(random, g.n.into());
    match random.below(9) {
        0..=2 => Call::AddEmitter {
            tracer,
            cell: index(random, all),
            id: if random.one_in(4) {
                some_id(random, world, tracer)
            } else {
                id(random)
            },
            units: units(random),
        },
        3 | 4 => Call::RemoveEmitter {
            tracer,
            id: if random.one_in(4) {
                id(random)
            } else {
                some_id(random, world, tracer)
            },
        },
        5 | 6 => Call::Tick { tracer },
        7 => to_the_limit(random, world, tracer),
        _ => Call::UnitsATick { tracer },
    }
}

/// An emission that leaves room for one tick and no more, or for one unit less; a tick where none is possible.
fn to_the_limit(random: &mut Random, world: &World, tracer: u32) -> Call {
    let count = cells(&world.grid).min(1 << 20) as usize;
    let gas = world.tracers.chunks(count.max(1)).nth(tracer as usize);
    let block = world.ledger.chunks(BLOCK).nth(tracer as usize);
    let (Some(gas), Some([_, low, 0, ..])) = (gas, block) else {
        return Call::Tick { tracer };
    };
    let taken = gas.iter().map(|&t| u64::from(t)).sum::<u64>() + u64::from(*low);
    let room = MOST.saturating_sub(taken) + random.below(2);
    Call::Emission {
        tracer,
        cell: random.below(gas.len() as u64) as u32,
        amount: room as u32,
    }
}
