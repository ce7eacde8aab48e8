//! Document 02's walk down a column: m9 by hand, random columns of every K beside the remap, under
//! each limiter, and the number of steps.

mod common;
use common::limits::{limits, put_limits, Limits, FIRST};
use common::*;
use reference::scheme::ratio;
use reference::walk::{states, states_by_table, steps, Column, State};
use reference::{script, tracer_above_edges, Limiter};

impl ColumnCase {
    fn states(&self, is_cap: bool) -> Vec<State> {
        let (air, tracer) = (signed(&self.air), signed(&self.tracer));
        let column = Column::new(&self.limits.limiter(), &air, &tracer, is_cap);
        states(&column, &self.edges)
    }

    /// G at each edge, by the remap.
    fn marks(&self, is_cap: bool) -> Vec<i64> {
        let (air, tracer) = (signed(&self.air), signed(&self.tracer));
        let limiter = self.limits.limiter();
        tracer_above_edges(&limiter, &air, &tracer, is_cap, &self.edges)
    }

    /// The three limiters, the third with bounds that some of the ratios are outside of.
    fn each_limits(&self) -> [Limits; 3] {
        let layers = self.air.iter().zip(&self.tracer);
        let mut ratios: Vec<u64> = layers
            .map(|(&m, &t)| ratio(m.into(), t.into()) as u64)
            .collect();
        ratios.sort_unstable();
        let (lo, hi) = (ratios[ratios.len() / 4] / 2, ratios[ratios.len() * 3 / 4]);
        [FIRST, limits(2, 0, 0), limits(3, lo, hi)]
    }
}

/// The test on the random columns of every K from 1 to 32, each as a row's and as a cap's, and under
/// each limiter.
fn for_random_cases(test: impl Fn(&ColumnCase, bool)) {
    for mut case in (1..=32).flat_map(random_columns) {
        for limits in case.each_limits() {
            case.limits = limits;
            test(&case, false);
            test(&case, true);
        }
    }
}

fn state(layers: usize, above: i64, amount: i64, edges: usize, mark: i64) -> State {
    State {
        layers,
        above,
        amount,
        edges,
        mark,
    }
}

#[test]
fn m9_by_hand() {
    let m9 = ColumnCase {
        limits: FIRST,
        air: vec![100, 100, 100],
        tracer: vec![0, 100, 200],
        edges: vec![0, 150, 200, 300],
    };
    let expected = vec![
        state(0, 0, 0, 0, 0),
        // Layer 0, tracer 0.
        state(1, 100, 0, 0, 0),
        // Edge 1: 50 units of layer 1, 37 (37.5 cut).
        state(1, 100, 0, 1, 37),
        // Edge 2 at the end of layer 1: all of it.
        state(1, 100, 0, 2, 100),
        // Layer 1, tracer 100.
        state(2, 200, 100, 2, 100),
        // Edge 3: all of layer 2, tracer 200.
        state(2, 200, 100, 3, 300),
    ];
    assert_eq!(m9.states(false), expected);
    assert_eq!(steps(&expected), 5);
    // As a cap's column layer 1 has D = 0 and gives 50.
    let mut at_a_cap = expected;
    at_a_cap[2].mark = 50;
    assert_eq!(m9.states(true), at_a_cap);
}

/// "a budget of 2K steps .. always reaches the last edge": after 2K − 1 steps, not before.
#[test]
fn the_last_edge_is_reached_in_2k_minus_1_steps() {
    for_random_cases(|case, is_cap| {
        let (layers, states) = (case.layers(), case.states(is_cap));
        assert_eq!(steps(&states), 2 * layers - 1);
        let reached = |state: &State| state.edges == layers;
        assert!(reached(&states[2 * layers - 1]));
        assert!(!states[..2 * layers - 1].iter().any(reached));
    });
}

/// "each passing one edge or one old layer and adding at most one layer's amount or piece"
#[test]
fn each_step_passes_one_edge_or_one_layer() {
    for_random_cases(|case, is_cap| {
        let states = case.states(is_cap);
        assert_eq!(states[0], State::default());
        for pair in states.windows(2) {
            let (before, after) = (&pair[0], &pair[1]);
            let k = before.layers;
            let (air, tracer) = (i64::from(case.air[k]), i64::from(case.tracer[k]));
            let edge = case.edges[before.edges + 1];
            if after.edges == before.edges {
                let passed = State {
                    layers: k + 1,
                    above: before.above + air,
                    amount: before.amount + tracer,
                    ..*before
                };
                assert_eq!(*after, passed);
                assert!(before.above + air < edge);
            } else {
                let passed = State {
                    edges: before.edges + 1,
                    mark: after.mark,
                    ..*before
                };
                assert_eq!(*after, passed);
                assert!(before.above < edge && edge <= before.above + air);
                assert!((0..=tracer).contains(&(after.mark - before.amount)));
                assert!(before.mark <= after.mark);
            }
        }
    });
}

/// "Every result and count is as before": each mark is G at its edge.
#[test]
fn each_mark_is_g_at_its_edge() {
    for_random_cases(|case, is_cap| {
        let marks = case.marks(is_cap);
        for state in case.states(is_cap) {
            assert_eq!(state.mark, marks[state.edges]);
        }
    });
}

/// The world has the column's air in all six columns, and its tracer in one of them.
#[test]
fn differences_of_marks_are_what_a_remap_leaves() {
    for_random_cases(|case, is_cap| {
        let layers = case.layers();
        let cell = if is_cap { 0 } else { 2 };
        let mut world = even_world(grid(4, 1, layers as u32, 1), 1);
        put_limits(&mut world, 0, case.limits);
        for k in 0..layers {
            world.air[6 * k..6 * (k + 1)].fill(case.air[k]);
            world.tracers[6 * k + cell] = case.tracer[k];
        }
        balance(&mut world);
        let answer = checked_call(&mut world, &remap(&case.table()));
        assert_eq!(answer.number, 0, "{:?}", case.edges);

        let states = case.states(is_cap);
        let mark_of = |edge: usize| {
            states
                .iter()
                .find(|state| state.edges == edge)
                .unwrap()
                .mark
        };
        for k in 0..layers {
            let left = i64::from(world.tracers[6 * k + cell]);
            assert_eq!(left, mark_of(k + 1) - mark_of(k));
        }
        let limiter = case.limits.limiter();
        let by_table = states_by_table(&limiter, &case.air, &case.tracer, is_cap, &case.table());
        assert_eq!(by_table, Some(states));
    });
}

/// Of every K the random columns have all places of edges that this K allows, and the limits.
#[test]
fn random_columns_have_all_places_of_edges() {
    for layers in 1..=32 {
        let (mut at_an_end, mut inside, mut together, mut far_apart) = (0, 0, 0, 0);
        let (mut all_at_ends, mut at_the_limits) = (0, 0);
        for case in random_columns(layers) {
            let ends = case.ends();
            let inner = &case.edges[1..layers];
            at_an_end += inner.iter().filter(|edge| ends.contains(edge)).count();
            inside += inner.iter().filter(|edge| !ends.contains(edge)).count();
            // The end of layer k belongs to layer k.
            let layer_of = |edge: &i64| ends.iter().filter(|&end| end < edge).count();
            for pair in inner.windows(2) {
                let passed = layer_of(&pair[1]) - layer_of(&pair[0]);
                together += usize::from(passed == 0);
                far_apart += usize::from(passed > 1);
            }
            all_at_ends += usize::from(case.edges == ends);
            let total: u64 = case.tracer.iter().map(|&amount| u64::from(amount)).sum();
            let full = case.air.iter().all(|&air| air == 65_535);
            at_the_limits += usize::from(total == MOST_TRACER && full);
        }
        assert!(all_at_ends > 0 && at_the_limits > 0, "K = {layers}");
        assert!(layers < 2 || (at_an_end > 0 && inside > 0), "K = {layers}");
        assert!(layers < 3 || together > 0, "K = {layers}");
        assert!(layers < 4 || far_apart > 0, "K = {layers}");
    }
}

/// The steps of a walk with the other rule, an edge after the layer that ends at it: the last
/// layer is passed too.
fn steps_by_the_other_rule(case: &ColumnCase) -> usize {
    let ends = case.ends();
    let (mut layers, mut edges, mut steps) = (0, 0, 0);
    while edges < case.layers() {
        let layer_ends_first = layers < case.layers() && ends[layers + 1] <= case.edges[edges + 1];
        if layer_ends_first {
            layers += 1;
        } else {
            edges += 1;
        }
        steps += 1;
    }
    steps
}

/// With the other rule 2K steps are made, and no smaller budget serves.
#[test]
fn the_other_rule_takes_2k_steps() {
    for_random_cases(|case, _| {
        assert_eq!(steps_by_the_other_rule(case), 2 * case.layers());
    });
}

#[test]
fn no_walk_where_no_remap_is_accepted() {
    let table = [0, 0, 150, 0, 200, 0, 0, 65_536];
    let walk = |air: &[u32], tracer: &[u32], table: &[u32]| {
        let states = states_by_table(&Limiter::Present, air, tracer, false, table);
        states.map(|states| steps(&states))
    };
    assert_eq!(walk(&[100; 3], &[0, 100, 200], &table), Some(5));
    assert_eq!(walk(&[100; 3], &[0, 100], &table), None);
    assert_eq!(walk(&[100; 2], &[0, 100], &table), None);
    assert_eq!(walk(&[100, 0, 100], &[0, 100, 200], &table), None);
    assert_eq!(walk(&[100, 100, 65_536], &[0, 100, 200], &table), None);
    assert_eq!(walk(&[100; 3], &[0, MOST_TRACER as u32, 1], &table), None);
    assert_eq!(walk(&[50; 3], &[0, 100, 200], &table), None);
    let cut_off = [0, 0, 150, 0, 200, 0, 0, 65_535];
    assert_eq!(walk(&[100; 3], &[0, 100, 200], &cut_off), None);
    assert_eq!(walk(&[], &[], &[0, 65_536]), None);
    for line in ["walk", "walk 2 0 0 0 65536", "walk 0 0 0 0 65535"] {
        let script = format!("air 9\ntracers 1\n{line}\n");
        let error = Some("line 3: no remap accepts this column".to_string());
        assert_eq!(script::run(&script).error, error);
    }
}

/// The inputs of the cases y3-1, y3-2, .. of the model's table, and the states of their walks.
#[test]
fn cases_of_the_walk_answer_as_stored() {
    let outcome = script::run(include_str!("../cases/walk.txt"));
    assert_eq!(outcome.error, None);
    assert_eq!(outcome.lines, include_str!("../cases/walk.out"));
}
