//! The sixteen calls in plain Rust, written from documents 01 and 02 for the benchmark: safe code on slices, with the same checks.
//! A call gives its count, or the number of the first refusal that applies.

use reference::Grid;
use std::ops::Range;

const MOST_W: usize = 72;
const MOST_K: usize = 32;
const MOST_LAYER: usize = 3170;
const MOST_FACES: usize = 3240;
const MOST_AIR: i64 = 65_535;
const MOST_TOTAL: u64 = 268_435_455;
/// The scale of ratio, mismatch and piece.
const SCALE: i64 = 262_144;
/// The scale of a table's b.
pub const TABLE_SCALE: u32 = 65_536;
const MOST_EMITTERS: usize = 16;
/// A tracer's block of the ledger: how many emitters stand, the low and the high half of their units a tick, 16 times id, cell,
/// units; then its limiter's number, and the low and the high half of lo and of hi; then what was loaded, emitted and withdrawn.
pub const BLOCK: usize = LOADED + 3;
const SUM: usize = 1;
pub const LIMITER: usize = 3 + 3 * MOST_EMITTERS;
const LO: usize = LIMITER + 1;
const HI: usize = LO + 2;
const LOADED: usize = HI + 2;
const EMITTED: usize = LOADED + 1;
const WITHDRAWN: usize = LOADED + 2;

type Outcome = Result<u64, u32>;

/// The sizes of a grid that passed place 1, and every tracer's total.
struct Tested {
    w: usize,
    layer: usize,
    cells: usize,
    totals: [u64; 8],
}

/// A tracer's limiter. A bound above `FAR` is `FAR`, since a size is below it anyway.
#[derive(Clone, Copy)]
enum Limiter {
    Present,
    Positive,
    Fixed { lo: i64, hi: i64 },
}

/// Twice the largest ratio, that of all of a tracer in a cell with one unit of air.
const FAR: u64 = 2 * SCALE as u64 * MOST_TOTAL;

enum Lent {
    Nothing,
    RowFluxes(usize),
    LayerFluxes(usize),
    Table(usize),
}

fn lent_fits(g: &Grid, lent: Lent) -> bool {
    match lent {
        Lent::Nothing => true,
        Lent::RowFluxes(length) => length == g.w as usize,
        Lent::LayerFluxes(length) => length == (g.w * (g.r + 1)) as usize,
        Lent::Table(length) => length == 2 * (g.k as usize + 1),
    }
}

fn total_of(gas: &[u32]) -> u64 {
    gas.iter().map(|&t| u64::from(t)).sum()
}

/// Places 1 to 4.
fn common_places(
    g: Grid,
    air: &[u32],
    tracers: &[u32],
    ledger: &[u32],
    lent: Lent,
) -> Result<Tested, u32> {
    let fits = (4..=72).contains(&g.w)
        && (1..=44).contains(&g.r)
        && (1..=32).contains(&g.k)
        && (1..=8).contains(&g.n);
    if !fits {
        return Err(1);
    }
    let w = g.w as usize;
    let layer = 2 + g.r as usize * w;
    let cells = g.k as usize * layer;
    let n = g.n as usize;
    let lengths = air.len() == cells && tracers.len() == n * cells && ledger.len() == n * BLOCK;
    if !lengths || !lent_fits(&g, lent) {
        return Err(2);
    }
    if air
        .iter()
        .fold(false, |bad, &m| bad | (m == 0) | (i64::from(m) > MOST_AIR))
    {
        return Err(3);
    }
    let mut totals = [0; 8];
    for (total, gas) in totals.iter_mut().zip(tracers.chunks_exact(cells)) {
        *total = total_of(gas);
        if *total > MOST_TOTAL {
            return Err(4);
        }
    }
    Ok(Tested {
        w,
        layer,
        cells,
        totals,
    })
}

/// Place 22 of every call but a load, by the totals of place 4.
fn books(world: &Tested, ledger: &[u32]) -> Result<(), u32> {
    let fit = |(block, total): (&[u32], &u64)| {
        let sum = |place: usize| u64::from(block[place]);
        sum(LOADED) + sum(EMITTED) == sum(WITHDRAWN) + total
    };
    let mut blocks = ledger.chunks_exact(BLOCK).zip(&world.totals);
    blocks.all(fit).then_some(()).ok_or(22)
}

/// Places 1 to 4, then 22, of a call that is lent nothing but the world.
fn tested_places(g: Grid, air: &[u32], tracers: &[u32], ledger: &[u32]) -> Result<Tested, u32> {
    let world = common_places(g, air, tracers, ledger, Lent::Nothing)?;
    books(&world, ledger)?;
    Ok(world)
}

pub fn load(g: Grid, air: &[u32], tracers: &[u32], ledger: &mut [u32]) -> Outcome {
    let world = common_places(g, air, tracers, ledger, Lent::Nothing)?;
    ledger.fill(0);
    for (block, total) in ledger.chunks_exact_mut(BLOCK).zip(world.totals) {
        block[LIMITER] = 1;
        block[LOADED] = total as u32;
    }
    Ok(0)
}

/// The number of 64 bits at a place of a block: the low half, then the high half.
fn kept(block: &[u32], place: usize) -> u64 {
    u64::from(block[place + 1]) << 32 | u64::from(block[place])
}

fn keep(block: &mut [u32], place: usize, number: u64) {
    block[place] = number as u32;
    block[place + 1] = (number >> 32) as u32;
}

/// Place 21 for one limiter.
fn limiter(number: u32, lo: u64, hi: u64) -> Result<Limiter, u32> {
    let [near_lo, near_hi] = [lo, hi].map(|bound| bound.min(FAR) as i64);
    match number {
        _ if lo > hi => Err(21),
        1 => Ok(Limiter::Present),
        2 => Ok(Limiter::Positive),
        3 => Ok(Limiter::Fixed {
            lo: near_lo,
            hi: near_hi,
        }),
        _ => Err(21),
    }
}

/// Places 21 and 22 of the calls that move air and of the count before a sweep: the limiter of each tracer.
fn limiters(world: &Tested, ledger: &[u32]) -> Result<[Limiter; 8], u32> {
    let mut limiters = [Limiter::Present; 8];
    for (by, block) in limiters.iter_mut().zip(ledger.chunks_exact(BLOCK)) {
        *by = limiter(block[LIMITER], kept(block, LO), kept(block, HI))?;
    }
    books(world, ledger)?;
    Ok(limiters)
}

/// The bounds are lo and hi.
pub fn set_limiter(
    g: Grid,
    air: &[u32],
    tracers: &[u32],
    ledger: &mut [u32],
    [tracer, number]: [u32; 2],
    [lo, hi]: [u64; 2],
) -> Outcome {
    tested_places(g, air, tracers, ledger)?;
    if tracer >= g.n {
        return Err(5);
    }
    limiter(number, lo, hi)?;
    let block = &mut ledger[tracer as usize * BLOCK..][..BLOCK];
    block[LIMITER] = number;
    keep(block, LO, lo);
    keep(block, HI, hi);
    Ok(0)
}

pub fn total(g: Grid, air: &[u32], tracers: &[u32], ledger: &[u32], tracer: u32) -> Outcome {
    let world = tested_places(g, air, tracers, ledger)?;
    if tracer >= g.n {
        return Err(5);
    }
    Ok(world.totals[tracer as usize])
}

/// Places 1 to 4, 22 and 5 of a call that names a tracer and a cell: where the amount stands, and the tracer's total.
fn named(
    g: Grid,
    air: &[u32],
    tracers: &[u32],
    ledger: &[u32],
    tracer: u32,
    cell: u32,
) -> Result<(usize, u64), u32> {
    let world = tested_places(g, air, tracers, ledger)?;
    if tracer >= g.n || cell as usize >= world.cells {
        return Err(5);
    }
    let tracer = tracer as usize;
    Ok((tracer * world.cells + cell as usize, world.totals[tracer]))
}

pub fn cell(
    g: Grid,
    air: &[u32],
    tracers: &[u32],
    ledger: &[u32],
    tracer: u32,
    cell: u32,
) -> Outcome {
    let (place, _) = named(g, air, tracers, ledger, tracer, cell)?;
    Ok(tracers[place].into())
}

pub fn emission(
    g: Grid,
    air: &[u32],
    tracers: &mut [u32],
    ledger: &mut [u32],
    tracer: u32,
    cell: u32,
    amount: u32,
) -> Outcome {
    let (place, total) = named(g, air, tracers, ledger, tracer, cell)?;
    let emitted = &mut ledger[tracer as usize * BLOCK + EMITTED];
    if total + u64::from(amount) > MOST_TOTAL {
        return Err(6);
    }
    *emitted = emitted.checked_add(amount).ok_or(6u32)?;
    tracers[place] += amount;
    Ok(0)
}

pub fn withdrawal(
    g: Grid,
    air: &[u32],
    tracers: &mut [u32],
    ledger: &mut [u32],
    tracer: u32,
    cell: u32,
    amount: u32,
) -> Outcome {
    let (place, _) = named(g, air, tracers, ledger, tracer, cell)?;
    let withdrawn = &mut ledger[tracer as usize * BLOCK + WITHDRAWN];
    let left = tracers[place].checked_sub(amount).ok_or(7u32)?;
    *withdrawn = withdrawn.checked_add(amount).ok_or(7u32)?;
    tracers[place] = left;
    Ok(0)
}

fn ratio(m: u32, t: u32) -> i64 {
    (SCALE as u64 * u64::from(t) / u64::from(m)) as i64
}

fn mismatch(by: Limiter, qa: i64, q: i64, qb: i64) -> i64 {
    let room = match by {
        Limiter::Present => (q - qa.min(q).min(qb)).min(qa.max(q).max(qb) - q),
        Limiter::Positive => q,
        // Outside the bounds one of the two is below 0.
        Limiter::Fixed { lo, hi } => (q - lo).min(hi - q).max(0),
    };
    let difference = qb - qa;
    let size = (difference.abs() / 2).min(2 * room);
    if difference < 0 {
        -size
    } else {
        size
    }
}

/// A numerator is never negative.
fn high_piece(d: i64, have: u32, t: u32, m: i64) -> i64 {
    let numerator = 2 * SCALE * m * i64::from(t) + d * m * (i64::from(have) - m);
    (numerator as u64 / (2 * SCALE as u64 * u64::from(have))) as i64
}

fn low_piece(d: i64, have: u32, t: u32, m: i64) -> i64 {
    high_piece(-d, have, t, m)
}

fn fluxes_fit(fluxes: &[i32], limit: u32) -> bool {
    fluxes.iter().all(|f| f.unsigned_abs() <= limit)
}

fn west_of(i: usize, w: usize) -> usize {
    if i == 0 {
        w - 1
    } else {
        i - 1
    }
}

fn east_of(i: usize, w: usize) -> usize {
    if i + 1 == w {
        0
    } else {
        i + 1
    }
}

/// Part s of n of each flux.
fn parts_of(part: &mut [i32], fluxes: &[i32], n: u64, s: u64) {
    for (part, &f) in part.iter_mut().zip(fluxes) {
        let size = u64::from(f.unsigned_abs());
        let p = (s * size / n - (s - 1) * size / n) as i32;
        *part = if f < 0 { -p } else { p };
    }
}

/// One substep of a row's air; false where it is not allowed.
fn step_air(air: &mut [u32], f: &[i32]) -> bool {
    let w = air.len();
    let mut next = [0; MOST_W];
    for i in 0..w {
        let west = f[west_of(i, w)];
        let have = i64::from(air[i]);
        let out = i64::from(f[i].max(0)) + i64::from((-west).max(0));
        let after = have + i64::from(west) - i64::from(f[i]);
        if out > have || !(1..=MOST_AIR).contains(&after) {
            return false;
        }
        next[i] = after as u32;
    }
    air.copy_from_slice(&next[..w]);
    true
}

fn serves(air: &[u32], fluxes: &[i32], n: u64) -> bool {
    let w = air.len();
    let (mut row, mut part) = ([0; MOST_W], [0; MOST_W]);
    let (row, part) = (&mut row[..w], &mut part[..w]);
    row.copy_from_slice(air);
    (1..=n).all(|s| {
        parts_of(part, fluxes, n, s);
        step_air(row, part)
    })
}

/// One substep of a tracer's row.
fn step_gas(gas: &mut [u32], air: &[u32], f: &[i32], by: Limiter) {
    let w = gas.len();
    let (mut q, mut d, mut piece) = ([0; MOST_W], [0; MOST_W], [0; MOST_W]);
    for ((q, &m), &t) in q.iter_mut().zip(air).zip(gas.iter()) {
        *q = ratio(m, t);
    }
    for i in 0..w {
        d[i] = mismatch(by, q[west_of(i, w)], q[i], q[east_of(i, w)]);
    }
    for i in 0..w {
        let (east, flux) = (east_of(i, w), i64::from(f[i]));
        piece[i] = match flux {
            0 => 0,
            1.. => high_piece(d[i], air[i], gas[i], flux),
            _ => -low_piece(d[east], air[east], gas[east], -flux),
        };
    }
    for i in 0..w {
        gas[i] = (i64::from(gas[i]) + piece[west_of(i, w)] - piece[i]) as u32;
    }
}

/// Places 5 and 8 of the calls on a row: the row's cells.
fn row_of(g: Grid, world: &Tested, layer: u32, row: u32, f: &[i32]) -> Result<Range<usize>, u32> {
    if layer >= g.k || row >= g.r {
        return Err(5);
    }
    if !fluxes_fit(f, 1_048_560) {
        return Err(8);
    }
    let first = layer as usize * world.layer + 1 + row as usize * world.w;
    Ok(first..first + world.w)
}

/// A row that can be swept: the world's sizes, the tracers' limiters, the row's cells, and the count of substeps.
struct Counted {
    world: Tested,
    limiters: [Limiter; 8],
    cells: Range<usize>,
    count: u64,
}

/// Places 1 to 4, 21, 22, 5, 8 and 9 of the zonal sweep, of the count before it, and of the sweep with a given count.
fn counted(
    g: Grid,
    air: &[u32],
    tracers: &[u32],
    ledger: &[u32],
    layer: u32,
    row: u32,
    fluxes: &[i32],
) -> Result<Counted, u32> {
    let world = common_places(g, air, tracers, ledger, Lent::RowFluxes(fluxes.len()))?;
    let limiters = limiters(&world, ledger)?;
    let cells = row_of(g, &world, layer, row, fluxes)?;
    let air = &air[cells.clone()];
    let count = (1..=16).find(|&n| serves(air, fluxes, n)).ok_or(9u32)?;
    Ok(Counted {
        world,
        limiters,
        cells,
        count,
    })
}

/// The row, swept in the air and in all tracers.
fn sweep_row(row: Counted, air: &mut [u32], tracers: &mut [u32], fluxes: &[i32]) -> Outcome {
    let Counted {
        world,
        limiters,
        cells,
        count,
    } = row;
    let air = &mut air[cells.clone()];
    let mut part = [0; MOST_W];
    let part = &mut part[..world.w];
    for s in 1..=count {
        parts_of(part, fluxes, count, s);
        for (gas, by) in tracers.chunks_exact_mut(world.cells).zip(limiters) {
            step_gas(&mut gas[cells.clone()], air, part, by);
        }
        step_air(air, part);
    }
    Ok(count)
}

pub fn zonal(
    g: Grid,
    air: &mut [u32],
    tracers: &mut [u32],
    ledger: &[u32],
    layer: u32,
    row: u32,
    fluxes: &[i32],
) -> Outcome {
    let row = counted(g, air, tracers, ledger, layer, row, fluxes)?;
    sweep_row(row, air, tracers, fluxes)
}

pub fn count_zonal(
    g: Grid,
    air: &[u32],
    tracers: &[u32],
    ledger: &[u32],
    layer: u32,
    row: u32,
    fluxes: &[i32],
) -> Outcome {
    Ok(counted(g, air, tracers, ledger, layer, row, fluxes)?.count)
}

/// `named` has the layer, the row and the given count.
pub fn zonal_with_count(
    g: Grid,
    air: &mut [u32],
    tracers: &mut [u32],
    ledger: &[u32],
    named: [u32; 3],
    fluxes: &[i32],
) -> Outcome {
    let [layer, row, given] = named;
    let row = counted(g, air, tracers, ledger, layer, row, fluxes)?;
    if u64::from(given) != row.count {
        return Err(20);
    }
    sweep_row(row, air, tracers, fluxes)
}

/// Where a face's mark lies: m units of air into a cell, which is met after so many turns from column 0.
#[derive(Clone, Copy, Default)]
struct Mark {
    turn: i64,
    cell: usize,
    m: i64,
}

/// The marks of each column's west face. They rise, and span one turn, so the line is walked once.
fn marks_of(at: &mut [Mark], air: &[u32], fluxes: &[i32], row_air: i64) {
    let w = air.len();
    let mut turn = if fluxes[w - 1] > 0 { -1 } else { 0 };
    let (mut before, mut x, mut i) = (turn * row_air, 0, 0);
    for j in 0..w {
        let place = x - i64::from(fluxes[west_of(j, w)]);
        while before + i64::from(air[i]) <= place {
            before += i64::from(air[i]);
            i = east_of(i, w);
            turn += i64::from(i == 0);
        }
        at[j] = Mark {
            turn,
            cell: i,
            m: place - before,
        };
        x += i64::from(air[j]);
    }
}

/// A tracer's row after the long sweep. The last column's east mark is the first west mark and a turn.
fn sweep_gas(gas: &mut [u32], air: &[u32], at: &[Mark], by: Limiter) {
    let w = gas.len();
    let (mut q, mut d, mut whole) = ([0; MOST_W], [0; MOST_W], [0; MOST_W]);
    let (mut marked, mut total) = ([0; MOST_W + 1], 0);
    for ((q, &m), &t) in q.iter_mut().zip(air).zip(gas.iter()) {
        *q = ratio(m, t);
    }
    for i in 0..w {
        d[i] = mismatch(by, q[west_of(i, w)], q[i], q[east_of(i, w)]);
        whole[i] = total;
        total += i64::from(gas[i]);
    }
    for (marked, at) in marked.iter_mut().zip(at) {
        let i = at.cell;
        *marked = at.turn * total + whole[i] + low_piece(d[i], air[i], gas[i], at.m);
    }
    marked[w] = marked[0] + total;
    for (gas, pair) in gas.iter_mut().zip(marked.windows(2)) {
        *gas = (pair[1] - pair[0]) as u32;
    }
}

/// A row's air after the long sweep, if it stays within 1 to 65,535.
fn long_air(air: &[u32], fluxes: &[i32]) -> Option<[u32; MOST_W]> {
    let w = air.len();
    let mut next = [0; MOST_W];
    for i in 0..w {
        let after = i64::from(air[i]) + i64::from(fluxes[west_of(i, w)]) - i64::from(fluxes[i]);
        if !(1..=MOST_AIR).contains(&after) {
            return None;
        }
        next[i] = after as u32;
    }
    Some(next)
}

pub fn long_zonal(
    g: Grid,
    air: &mut [u32],
    tracers: &mut [u32],
    ledger: &[u32],
    layer: u32,
    row: u32,
    fluxes: &[i32],
) -> Outcome {
    let world = common_places(g, air, tracers, ledger, Lent::RowFluxes(fluxes.len()))?;
    let limiters = limiters(&world, ledger)?;
    let cells = row_of(g, &world, layer, row, fluxes)?;
    let air = &mut air[cells.clone()];
    let row_air = total_of(air);
    if !fluxes_fit(fluxes, row_air as u32) {
        return Err(16);
    }
    let next = long_air(air, fluxes).ok_or(17u32)?;
    let mut at = [Mark::default(); MOST_W];
    let at = &mut at[..world.w];
    marks_of(at, air, fluxes, row_air as i64);
    for (gas, by) in tracers.chunks_exact_mut(world.cells).zip(limiters) {
        sweep_gas(&mut gas[cells.clone()], air, at, by);
    }
    air.copy_from_slice(&next[..world.w]);
    Ok(0)
}

/// The cells south and north of a face, where `rows` cells lie between the caps.
fn beside(face: usize, w: usize, rows: usize) -> (usize, usize) {
    let south = if face < w { 0 } else { 1 + face - w };
    let north = if face < rows { 1 + face } else { 1 + rows };
    (south, north)
}

/// A layer's air after the substep, if it is allowed.
fn layer_after(air: &[u32], f: &[i32], w: usize) -> Option<[u32; MOST_LAYER]> {
    let rows = air.len() - 2;
    let (mut out, mut after) = ([0; MOST_LAYER], [0; MOST_LAYER]);
    for (after, &m) in after.iter_mut().zip(air) {
        *after = i64::from(m);
    }
    for (i, &flux) in f.iter().enumerate() {
        let (south, north) = beside(i, w, rows);
        let flux = i64::from(flux);
        out[south] += flux.max(0);
        out[north] += (-flux).max(0);
        after[south] -= flux;
        after[north] += flux;
    }
    let mut next = [0; MOST_LAYER];
    for (c, &m) in air.iter().enumerate() {
        if out[c] > i64::from(m) || !(1..=MOST_AIR).contains(&after[c]) {
            return None;
        }
        next[c] = after[c] as u32;
    }
    Some(next)
}

fn layer_pieces(gas: &[u32], air: &[u32], f: &[i32], w: usize, by: Limiter) -> [i64; MOST_FACES] {
    let rows = air.len() - 2;
    let (mut q, mut d) = ([0; MOST_LAYER], [0; MOST_LAYER]);
    for ((q, &m), &t) in q.iter_mut().zip(air).zip(gas) {
        *q = ratio(m, t);
    }
    for j in 0..rows {
        let (south, _) = beside(j, w, rows);
        let (_, north) = beside(w + j, w, rows);
        d[1 + j] = mismatch(by, q[south], q[1 + j], q[north]);
    }
    let mut piece = [0; MOST_FACES];
    for (i, &flux) in f.iter().enumerate() {
        let (south, north) = beside(i, w, rows);
        let flux = i64::from(flux);
        piece[i] = match flux {
            0 => 0,
            1.. => high_piece(d[south], air[south], gas[south], flux),
            _ => -low_piece(d[north], air[north], gas[north], -flux),
        };
    }
    piece
}

fn step_layer_gas(gas: &mut [u32], air: &[u32], f: &[i32], w: usize, by: Limiter) {
    let rows = air.len() - 2;
    let piece = layer_pieces(gas, air, f, w, by);
    let after = |t: u32, enters: i64, leaves: i64| (i64::from(t) + enters - leaves) as u32;
    gas[0] = after(gas[0], 0, piece[..w].iter().sum());
    for j in 0..rows {
        gas[1 + j] = after(gas[1 + j], piece[j], piece[w + j]);
    }
    gas[1 + rows] = after(gas[1 + rows], piece[rows..rows + w].iter().sum(), 0);
}

pub fn meridional(
    g: Grid,
    air: &mut [u32],
    tracers: &mut [u32],
    ledger: &[u32],
    layer: u32,
    fluxes: &[i32],
) -> Outcome {
    let world = common_places(g, air, tracers, ledger, Lent::LayerFluxes(fluxes.len()))?;
    let limiters = limiters(&world, ledger)?;
    if layer >= g.k {
        return Err(5);
    }
    if !fluxes_fit(fluxes, 65_535) {
        return Err(8);
    }
    let first = layer as usize * world.layer;
    let cells = first..first + world.layer;
    let air = &mut air[cells.clone()];
    let next = layer_after(air, fluxes, world.w).ok_or(10u32)?;
    for (gas, by) in tracers.chunks_exact_mut(world.cells).zip(limiters) {
        step_layer_gas(&mut gas[cells.clone()], air, fluxes, world.w, by);
    }
    air.copy_from_slice(&next[..world.layer]);
    Ok(1)
}

fn table_fits(table: &[u32]) -> bool {
    table.starts_with(&[0, 0])
        && table.ends_with(&[0, TABLE_SCALE])
        && table
            .chunks_exact(2)
            .all(|pair| pair[0] <= 2_097_120 && pair[1] <= TABLE_SCALE)
}

/// A column's old air and the table's edges in it.
struct Column {
    air: [u32; MOST_K],
    edges: [i64; MOST_K + 1],
}

fn column_at(air: &[u32], table: &[u32], c: usize, layer: usize) -> Column {
    let mut column = Column {
        air: [0; MOST_K],
        edges: [0; MOST_K + 1],
    };
    for (m, &lent) in column.air.iter_mut().zip(air[c..].iter().step_by(layer)) {
        *m = lent;
    }
    let p: i64 = column.air.iter().map(|&m| i64::from(m)).sum();
    for (edge, pair) in column.edges.iter_mut().zip(table.chunks_exact(2)) {
        *edge = i64::from(pair[0]) + i64::from(pair[1]) * p / i64::from(TABLE_SCALE);
    }
    column
}

/// The pairs of layers that share air, if the edges serve.
fn pairs_of(column: &Column, k: usize) -> Option<u64> {
    let edges = &column.edges[..=k];
    let serve = |pair: &[i64]| (1..=MOST_AIR).contains(&(pair[1] - pair[0]));
    if !edges.windows(2).all(serve) {
        return None;
    }
    let (mut i, mut lower, mut count) = (0, i64::from(column.air[0]), 0);
    for pair in edges.windows(2) {
        while lower <= pair[0] {
            i += 1;
            lower += i64::from(column.air[i]);
        }
        count += 1;
        while lower < pair[1] {
            i += 1;
            lower += i64::from(column.air[i]);
            count += 1;
        }
    }
    Some(count)
}

/// Where a new layer's lower edge lies: in an old layer, with so much of its air above the edge.
#[derive(Clone, Copy, Default)]
struct Place {
    layer: usize,
    above: i64,
}

/// The places of a column's lower edges, which all tracers share.
fn places_of(at: &mut [Place], column: &Column) {
    let (mut layer, mut upper) = (0, 0);
    for (at, &edge) in at.iter_mut().zip(&column.edges[1..]) {
        while upper + i64::from(column.air[layer]) < edge {
            upper += i64::from(column.air[layer]);
            layer += 1;
        }
        let above = edge - upper;
        *at = Place { layer, above };
    }
}

/// A tracer's column, remapped: `gas` begins with its top cell.
fn remap_gas(
    gas: &mut [u32],
    air: &[u32; MOST_K],
    at: &[Place],
    cap: bool,
    layer: usize,
    by: Limiter,
) {
    let k = at.len();
    let (mut t, mut q, mut d) = ([0; MOST_K], [0; MOST_K], [0; MOST_K]);
    let (mut whole, mut total, mut last) = ([0; MOST_K], 0, 0);
    for i in 0..k {
        t[i] = gas[i * layer];
        q[i] = ratio(air[i], t[i]);
        whole[i] = total;
        total += i64::from(t[i]);
    }
    if !cap {
        for i in 1..k.max(2) - 1 {
            d[i] = mismatch(by, q[i - 1], q[i], q[i + 1]);
        }
    }
    for (j, at) in at.iter().enumerate() {
        let i = at.layer;
        let next = whole[i] + low_piece(d[i], air[i], t[i], at.above);
        gas[j * layer] = (next - last) as u32;
        last = next;
    }
}

pub fn remap(
    g: Grid,
    air: &mut [u32],
    tracers: &mut [u32],
    ledger: &[u32],
    table: &[u32],
) -> Outcome {
    let world = common_places(g, air, tracers, ledger, Lent::Table(table.len()))?;
    let limiters = limiters(&world, ledger)?;
    if !table_fits(table) {
        return Err(11);
    }
    let (layer, k) = (world.layer, g.k as usize);
    let mut count = 0;
    for c in 0..layer {
        count += pairs_of(&column_at(air, table, c, layer), k).ok_or(12u32)?;
    }
    let mut at = [Place::default(); MOST_K];
    for c in 0..layer {
        let column = column_at(air, table, c, layer);
        places_of(&mut at[..k], &column);
        let cap = c == 0 || c + 1 == layer;
        for (gas, by) in tracers.chunks_exact_mut(world.cells).zip(limiters) {
            remap_gas(&mut gas[c..], &column.air, &at[..k], cap, layer, by);
        }
        for (j, pair) in column.edges[..=k].windows(2).enumerate() {
            air[c + j * layer] = (pair[1] - pair[0]) as u32;
        }
    }
    Ok(count)
}

/// The standing emitters of a block, each as id, cell, units. What follows them is not read.
fn emitters(block: &[u32]) -> std::slice::ChunksExact<'_, u32> {
    block[3..3 + 3 * block[0] as usize].chunks_exact(3)
}

fn record_fits(block: &[u32], cells: usize) -> bool {
    if block[0] as usize > MOST_EMITTERS {
        return false;
    }
    let mut sum = 0;
    for (i, emitter) in emitters(block).enumerate() {
        let met = emitters(block).take(i).any(|other| other[0] == emitter[0]);
        if met || emitter[1] as usize >= cells {
            return false;
        }
        sum += u64::from(emitter[2]);
    }
    sum == kept(block, SUM)
}

/// Places 1 to 4, 22 and 5 of the calls on emitters, but for a cell that the call names: the tracer.
fn with_emitters(
    g: Grid,
    air: &[u32],
    tracers: &[u32],
    ledger: &[u32],
    tracer: u32,
) -> Result<(Tested, usize), u32> {
    let world = tested_places(g, air, tracers, ledger)?;
    let fit = |block| record_fits(block, world.cells);
    if tracer >= g.n || !ledger.chunks_exact(BLOCK).all(fit) {
        return Err(5);
    }
    Ok((world, tracer as usize))
}

/// The new emitter as id, cell, units.
pub fn add_emitter(
    g: Grid,
    air: &[u32],
    tracers: &[u32],
    ledger: &mut [u32],
    tracer: u32,
    new: [u32; 3],
) -> Outcome {
    let (world, tracer) = with_emitters(g, air, tracers, ledger, tracer)?;
    if new[1] as usize >= world.cells {
        return Err(5);
    }
    let block = &mut ledger[tracer * BLOCK..][..BLOCK];
    let standing = block[0] as usize;
    if standing == MOST_EMITTERS || emitters(block).any(|emitter| emitter[0] == new[0]) {
        return Err(18);
    }
    block[3 + 3 * standing..][..3].copy_from_slice(&new);
    keep(block, SUM, kept(block, SUM) + u64::from(new[2]));
    block[0] += 1;
    Ok(0)
}

pub fn remove_emitter(
    g: Grid,
    air: &[u32],
    tracers: &[u32],
    ledger: &mut [u32],
    tracer: u32,
    id: u32,
) -> Outcome {
    let (_, tracer) = with_emitters(g, air, tracers, ledger, tracer)?;
    let block = &mut ledger[tracer * BLOCK..][..BLOCK];
    let found = emitters(block).position(|emitter| emitter[0] == id);
    let place = 3 + 3 * found.ok_or(19u32)?;
    keep(block, SUM, kept(block, SUM) - u64::from(block[place + 2]));
    block[0] -= 1;
    let last = 3 + 3 * block[0] as usize;
    block.copy_within(last..last + 3, place);
    block[last..last + 3].fill(0);
    Ok(0)
}

pub fn tick(g: Grid, air: &[u32], tracers: &mut [u32], ledger: &mut [u32], tracer: u32) -> Outcome {
    let (world, tracer) = with_emitters(g, air, tracers, ledger, tracer)?;
    let block = &mut ledger[tracer * BLOCK..][..BLOCK];
    let units = kept(block, SUM);
    if world.totals[tracer] + units > MOST_TOTAL {
        return Err(6);
    }
    block[EMITTED] = block[EMITTED].checked_add(units as u32).ok_or(6u32)?;
    let gas = &mut tracers[tracer * world.cells..][..world.cells];
    for emitter in emitters(block) {
        gas[emitter[1] as usize] += emitter[2];
    }
    Ok(0)
}

pub fn units_a_tick(g: Grid, air: &[u32], tracers: &[u32], ledger: &[u32], tracer: u32) -> Outcome {
    let (_, tracer) = with_emitters(g, air, tracers, ledger, tracer)?;
    Ok(kept(&ledger[tracer * BLOCK..], SUM))
}
