//! Document 02's remap readout: m9 by hand, the old bounds, random columns of every K by the edges
//! in common and by units of air, and which columns are counted.

mod common;
use common::*;
use reference::readout::{pairs, pairs_by_table, Pair};
use reference::{script, World};
use std::collections::BTreeSet;

/// m9's edges, 0, 150, 200 and the column's air.
const TABLE_OF_M9: [u32; 8] = [0, 0, 150, 0, 200, 0, 0, 65_536];

impl ColumnCase {
    fn pairs(&self) -> Vec<Pair> {
        pairs(&signed(&self.air), &self.edges)
    }

    /// The edges that old and new layers have in common, but for the column's top and bottom.
    fn inner_edges_in_common(&self) -> usize {
        let inner = |edges: &[i64]| BTreeSet::from_iter(edges[1..self.layers()].to_vec());
        let (old, new) = (inner(&self.ends()), inner(&self.edges));
        old.intersection(&new).count()
    }

    /// Grid 4, 1, K, N, whose six columns all have this air; no tracer.
    fn six_alike(&self, tracers: u32) -> World {
        let mut world = even_world(grid(4, 1, self.layers() as u32, tracers), 1);
        for (k, &air) in self.air.iter().enumerate() {
            world.air[6 * k..6 * (k + 1)].fill(air);
        }
        world
    }

    /// The column has so many pairs, and a remap of six such columns counts six times as many.
    fn expect_count(&self, count: usize) {
        assert_eq!(self.pairs().len(), count, "{self:?}");
        let asked = remap(&self.table());
        expect_accepted(&self.six_alike(1), &asked, 6 * count as u64);
    }

    /// The column has these pairs.
    fn expect_pairs(&self, expected: &[Pair]) {
        assert_eq!(self.pairs(), expected);
        let by_table = pairs_by_table(&self.air, &self.table());
        assert_eq!(by_table.as_deref(), Some(expected));
        self.expect_count(expected.len());
    }
}

fn column(air: &[u32], edges: &[i64]) -> ColumnCase {
    ColumnCase {
        limits: limits::FIRST,
        air: air.to_vec(),
        tracer: vec![0; air.len()],
        edges: edges.to_vec(),
    }
}

fn pair(old: usize, new: usize, from: i64, to: i64) -> Pair {
    Pair { old, new, from, to }
}

#[test]
fn m9_by_hand() {
    let m9 = column(&[100; 3], &[0, 150, 200, 300]);
    m9.expect_pairs(&[
        pair(0, 0, 0, 100),
        pair(1, 0, 100, 150),
        pair(1, 1, 150, 200),
        pair(2, 2, 200, 300),
    ]);
    assert_eq!(m9.table(), TABLE_OF_M9);
    expect_accepted(&m9.six_alike(1), &remap(&TABLE_OF_M9), 24);
}

/// Document 01's bounds are K and 2K − 1.
#[test]
fn four_layers_at_each_bound() {
    // All edges at layers' ends: K = 4.
    column(&[30, 50, 20, 40], &[0, 30, 80, 100, 140]).expect_pairs(&[
        pair(0, 0, 0, 30),
        pair(1, 1, 30, 80),
        pair(2, 2, 80, 100),
        pair(3, 3, 100, 140),
    ]);
    // No inner edge at a layer's end: 2K − 1 = 7.
    column(&[30, 50, 20, 40], &[0, 10, 60, 90, 140]).expect_pairs(&[
        pair(0, 0, 0, 10),
        pair(0, 1, 10, 30),
        pair(1, 1, 30, 60),
        pair(1, 2, 60, 80),
        pair(2, 2, 80, 90),
        pair(2, 3, 90, 100),
        pair(3, 3, 100, 140),
    ]);
}

#[test]
fn one_layer_is_one_pair() {
    for air in [1, 2, 70, 65_535] {
        let bottom = i64::from(air);
        column(&[air], &[0, bottom]).expect_pairs(&[pair(0, 0, 0, bottom)]);
    }
}

/// Layers of air 100, with all inner edges at the ends or all in the middle.
#[test]
fn each_bound_is_met_for_every_k() {
    for layers in 1..=32 {
        let air = vec![100; layers];
        let mut edges: Vec<i64> = (0..=layers as i64).map(|j| 100 * j).collect();
        column(&air, &edges).expect_count(layers);
        for edge in &mut edges[1..layers] {
            *edge += 50;
        }
        column(&air, &edges).expect_count(2 * layers - 1);
    }
}

/// "The old bounds then follow from it."
#[test]
fn random_columns_keep_the_old_bounds() {
    for layers in 1..=32 {
        let columns = random_columns(layers);
        let counts: Vec<usize> = columns.iter().map(|column| column.pairs().len()).collect();
        let bounds = layers..=2 * layers - 1;
        assert!(counts.iter().all(|count| bounds.contains(count)));
        // Both are met.
        assert!(counts.contains(bounds.start()), "K = {layers}");
        assert!(counts.contains(bounds.end()), "K = {layers}");
    }
}

#[test]
fn the_count_is_2k_minus_1_less_the_inner_edges_in_common() {
    for layers in 1..=32 {
        let (mut none, mut some, mut all) = (0, 0, 0);
        for column in random_columns(layers) {
            let in_common = column.inner_edges_in_common();
            column.expect_count(2 * layers - 1 - in_common);
            none += usize::from(in_common == 0);
            some += usize::from(0 < in_common && in_common < layers - 1);
            all += usize::from(in_common == layers - 1);
        }
        // Two layers have one inner edge in common or none.
        assert!(none > 0 && all > 0, "K = {layers}");
        assert!(layers < 3 || some > 0, "K = {layers}");
    }
}

/// "share some air": one unit of air is some. Unit u has u units above it in the column.
#[test]
fn pairs_are_the_layers_in_which_units_of_air_lie() {
    let layer_of = |edges: &[i64], unit: i64| edges[1..].iter().filter(|&&e| e <= unit).count();
    for layers in 1..=32 {
        let mut columns = random_columns(layers);
        columns.retain(|column| column.air.iter().sum::<u32>() <= 6_400);
        assert!(columns.len() > 100, "K = {layers}");
        for column in &columns[..100] {
            let (ends, edges) = (column.ends(), &column.edges);
            let layers_of = |unit: i64| (layer_of(&ends, unit), layer_of(edges, unit));
            let expected: BTreeSet<_> = (0..ends[layers]).map(layers_of).collect();
            let found = column.pairs().into_iter().map(|pair| (pair.old, pair.new));
            assert!(found.eq(expected), "{column:?}");
        }
    }
}

/// The stretches of air of the pairs: each in both of its layers, and together the column.
#[test]
fn pairs_follow_one_another_from_top_to_bottom() {
    for column in (1..=32).flat_map(random_columns) {
        let (ends, edges) = (column.ends(), &column.edges);
        let mut place = 0;
        for Pair { old, new, from, to } in column.pairs() {
            assert!(from == place && from < to, "{column:?}");
            assert!(ends[old] <= from && to <= ends[old + 1], "{column:?}");
            assert!(edges[new] <= from && to <= edges[new + 1], "{column:?}");
            place = to;
        }
        assert_eq!(place, ends[column.layers()]);
    }
}

#[test]
fn layers_that_only_touch_are_not_counted() {
    // Old 0 and new 1 touch at 50, and so do old 1 and new 0.
    let at_the_end = column(&[50, 50], &[0, 50, 100]);
    at_the_end.expect_pairs(&[pair(0, 0, 0, 50), pair(1, 1, 50, 100)]);
    // Old 1 and new 0 share one unit.
    let below = column(&[50, 50], &[0, 51, 100]);
    below.expect_pairs(&[pair(0, 0, 0, 50), pair(1, 0, 50, 51), pair(1, 1, 51, 100)]);
    // Old 0 and new 1 share one unit.
    let above = column(&[50, 50], &[0, 49, 100]);
    above.expect_pairs(&[pair(0, 0, 0, 49), pair(0, 1, 49, 50), pair(1, 1, 50, 100)]);
}

#[test]
fn one_tracer_or_eight_give_the_same_count() {
    let mut random = Random::new(40);
    for column in (1..=32).flat_map(|layers| random_columns(layers).into_iter().take(20)) {
        let count = 6 * column.pairs().len() as u64;
        for n in [1, 8] {
            let mut world = column.six_alike(n);
            world.tracers = (0..n)
                .flat_map(|_| random_tracer(&mut random, &world.air))
                .collect();
            balance(&mut world);
            expect_accepted(&world, &remap(&column.table()), count);
        }
    }
}

/// The count of six columns with edge 1 at 50: those named have air 40, 60 and 3 pairs, the others
/// 50, 50 and 2 pairs.
fn expect_count_of_two_layers(uneven: &[usize], count: u64) {
    let mut world = even_world(grid(4, 1, 2, 1), 50);
    for &cell in uneven {
        world.air[cell] = 40;
        world.air[6 + cell] = 60;
    }
    expect_accepted(&world, &remap(&[0, 0, 50, 0, 0, 65_536]), count);
}

/// Column 0 is the south cap's, column 5 the north cap's.
#[test]
fn the_columns_of_the_caps_are_counted() {
    expect_count_of_two_layers(&[], 12);
    expect_count_of_two_layers(&[0], 13);
    expect_count_of_two_layers(&[5], 13);
    expect_count_of_two_layers(&[0, 5], 14);
    expect_count_of_two_layers(&[1, 2, 3, 4], 16);
    expect_count_of_two_layers(&[0, 1, 2, 3, 4, 5], 18);
}

#[test]
fn all_columns_are_counted() {
    for choice in 0..64 {
        let uneven: Vec<usize> = (0..6).filter(|cell| choice >> cell & 1 == 1).collect();
        expect_count_of_two_layers(&uneven, 12 + uneven.len() as u64);
    }
}

#[test]
fn columns_with_different_counts() {
    // Each with edges 0, 100, 200 and its air.
    let columns = [
        ([100, 100, 100], 3),
        ([100, 50, 150], 4),
        ([90, 120, 90], 5),
        ([150, 60, 8], 5),
        ([250, 25, 25], 5),
        ([100, 100, 7], 3),
    ];
    let mut world = even_world(grid(4, 1, 3, 1), 1);
    for (cell, (air, count)) in columns.into_iter().enumerate() {
        let bottom = i64::from(air.iter().sum::<u32>());
        column(&air, &[0, 100, 200, bottom]).expect_count(count);
        for (k, air) in air.into_iter().enumerate() {
            world.air[6 * k + cell] = air;
        }
    }
    let asked = remap(&[0, 0, 100, 0, 200, 0, 0, 65_536]);
    expect_accepted(&world, &asked, 25);
}

/// m9's world, changed, gets this refusal, with count 0.
fn expect_refusal_of(change: impl Fn(&mut World), table: &[u32], number: u32) {
    let mut world = column(&[100; 3], &[0, 150, 200, 300]).six_alike(1);
    change(&mut world);
    expect_refusal(&world, &remap(table), number);
}

#[test]
fn a_refused_remap_has_count_0() {
    let table = &TABLE_OF_M9;
    expect_refusal_of(|world| world.grid.w = 3, table, 1);
    expect_refusal_of(|_| {}, &table[..6], 2);
    expect_refusal_of(|world| world.air[17] = 0, table, 3);
    expect_refusal_of(|world| world.tracers[17] = u32::MAX, table, 4);
    expect_refusal_of(|_| {}, &[0, 0, 150, 0, 200, 0, 0, 65_535], 11);
    expect_refusal_of(|_| {}, &[0, 0, 200, 0, 200, 0, 0, 65_536], 12);
    // Five columns would have 4 pairs each; the last has air 200, and its edges 2 and 3 are 200.
    let thin = |world: &mut World| (world.air[11], world.air[17]) = (50, 50);
    expect_refusal_of(thin, table, 12);
}

#[test]
fn no_pairs_where_no_remap_is_accepted() {
    let number = |air: &[u32], table: &[u32]| pairs_by_table(air, table).map(|pairs| pairs.len());
    let table = &TABLE_OF_M9;
    assert_eq!(number(&[100; 3], table), Some(4));
    assert_eq!(number(&[100; 2], table), None);
    assert_eq!(number(&[100; 4], table), None);
    assert_eq!(number(&[100, 0, 200], table), None);
    assert_eq!(number(&[100, 100, 65_536], table), None);
    assert_eq!(number(&[100, 50, 50], table), None);
    let cut_off = [0, 0, 150, 0, 200, 0, 0, 65_535];
    assert_eq!(number(&[100; 3], &cut_off), None);
    assert_eq!(number(&[], &[0, 65_536]), None);
}

/// The inputs of the cases y4-1, y4-2, .. of the model's table, and the pairs of some of their
/// columns.
#[test]
fn cases_of_the_readout_answer_as_stored() {
    let readout = script::run(include_str!("../cases/readout.txt"));
    assert_eq!(readout.error, None);
    assert_eq!(readout.lines, include_str!("../cases/readout.out"));
    let pairs = script::run(include_str!("../cases/pairs.txt"));
    assert_eq!(pairs.error, None);
    assert_eq!(pairs.lines, include_str!("../cases/pairs.out"));
}
