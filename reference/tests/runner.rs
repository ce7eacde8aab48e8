//! The runner program: case P, refusals 13 to 15, truncated and random inputs.

mod common;
use common::*;
use reference::runner::run;
use reference::{call, Call, World};

fn grid_record(w: u8, r: u8, k: u8, n: u8) -> Vec<u8> {
    vec![1, w, r, k, n]
}

fn bytes_of(numbers: &[u32]) -> Vec<u8> {
    numbers.iter().flat_map(|n| n.to_le_bytes()).collect()
}

fn flux_bytes(fluxes: &[i32]) -> Vec<u8> {
    fluxes.iter().flat_map(|f| f.to_le_bytes()).collect()
}

fn load_record(world: &World) -> Vec<u8> {
    [vec![2], bytes_of(&world.air), bytes_of(&world.tracers)].concat()
}

/// The kinds are those of document 01: no call of document 02 has a record.
fn has_record(asked: &Call) -> bool {
    !matches!(
        asked,
        Call::LongZonal { .. }
            | Call::CountZonal { .. }
            | Call::ZonalWithCount { .. }
            | Call::AddEmitter { .. }
            | Call::RemoveEmitter { .. }
            | Call::Tick { .. }
            | Call::UnitsATick { .. }
            | Call::SetLimiter { .. }
    )
}

/// The kind of a call and its record.
fn record(asked: &Call) -> Vec<u8> {
    let cell_bytes = |cell: u32| (cell as u16).to_le_bytes().to_vec();
    match asked {
        Call::Load => unreachable!("a load has the world's numbers"),
        Call::Emission {
            tracer,
            cell,
            amount,
        } => [
            vec![3, *tracer as u8],
            cell_bytes(*cell),
            bytes_of(&[*amount]),
        ]
        .concat(),
        Call::Withdrawal {
            tracer,
            cell,
            amount,
        } => [
            vec![4, *tracer as u8],
            cell_bytes(*cell),
            bytes_of(&[*amount]),
        ]
        .concat(),
        Call::Zonal { layer, row, fluxes } => {
            [vec![5, *layer as u8, *row as u8], flux_bytes(fluxes)].concat()
        }
        Call::Meridional { layer, fluxes } => [vec![6, *layer as u8], flux_bytes(fluxes)].concat(),
        Call::Remap { table } => [vec![7], bytes_of(table)].concat(),
        Call::Total { tracer } => vec![8, *tracer as u8],
        Call::Cell { tracer, cell } => [vec![9, *tracer as u8], cell_bytes(*cell)].concat(),
        _ => unreachable!("{asked:?} has no record"),
    }
}

/// Grid 4, 1, 1, 1 and its load.
fn start() -> Vec<u8> {
    let world = row_world([100; 4], [0, 100, 200, 100]);
    [grid_record(4, 1, 1, 1), load_record(&world)].concat()
}

fn case_p() -> Vec<u8> {
    [
        start(),
        record(&zonal(0, 0, &[0, 50, 0, 0])),
        record(&Call::Total { tracer: 0 }),
        record(&Call::Cell { tracer: 0, cell: 3 }),
    ]
    .concat()
}

#[test]
fn case_p_byte_for_byte() {
    #[rustfmt::skip]
    let input: &[u8] = &[
        1, 4, 1, 1, 1,
        2,
        100, 0, 0, 0, 100, 0, 0, 0, 100, 0, 0, 0, 100, 0, 0, 0, 100, 0, 0, 0, 100, 0, 0, 0,
        0, 0, 0, 0, 0, 0, 0, 0, 100, 0, 0, 0, 200, 0, 0, 0, 100, 0, 0, 0, 0, 0, 0, 0,
        5, 0, 0, 0, 0, 0, 0, 50, 0, 0, 0, 0, 0, 0, 0, 0, 0, 0, 0,
        8, 0,
        9, 0, 3, 0,
    ];
    assert_eq!(input, case_p());
    assert_eq!(run(input), "1 0 0\n2 0 0\n5 0 1\n8 0 400\n9 0 262\n");
}

#[test]
fn empty_input_prints_nothing() {
    assert_eq!(run(&[]), "");
}

#[test]
fn refusal_13_unknown_kind() {
    for kind in [0_u8, 10, 11, 255] {
        assert_eq!(run(&[kind]), format!("{kind} 13 0\n"));
        let after_load = [start(), vec![kind], vec![8, 0]].concat();
        assert_eq!(run(&after_load), format!("1 0 0\n2 0 0\n{kind} 13 0\n"));
    }
}

#[test]
fn refusal_13_record_out_of_place() {
    for kind in 2..=9_u8 {
        assert_eq!(run(&[kind]), format!("{kind} 13 0\n"));
        assert_eq!(run(&[[kind; 1]; 99].concat()), format!("{kind} 13 0\n"));
    }
    // Kind 1 once.
    let twice = [grid_record(4, 1, 1, 1), grid_record(4, 1, 1, 1)].concat();
    assert_eq!(run(&twice), "1 0 0\n1 13 0\n");
    let after_load = [start(), grid_record(4, 1, 1, 1)].concat();
    assert_eq!(run(&after_load), "1 0 0\n2 0 0\n1 13 0\n");
    // 3 to 9 before a load.
    for kind in 3..=9_u8 {
        let input = [grid_record(4, 1, 1, 1), vec![kind; 99]].concat();
        assert_eq!(run(&input), format!("1 0 0\n{kind} 13 0\n"));
    }
}

#[test]
fn a_refused_load_unloads() {
    let mut bad = row_world([100; 4], [0; 4]);
    bad.air[5] = 0;
    let refused_first = [grid_record(4, 1, 1, 1), load_record(&bad), vec![8, 0]].concat();
    assert_eq!(run(&refused_first), "1 0 0\n2 3 0\n8 13 0\n");
    let refused_later = [start(), vec![8, 0], load_record(&bad), vec![8, 0]].concat();
    assert_eq!(
        run(&refused_later),
        "1 0 0\n2 0 0\n8 0 400\n2 3 0\n8 13 0\n"
    );
    bad.air[5] = 1;
    bad.tracers[0] = 268_435_456;
    let good = row_world([100; 4], [7, 0, 0, 0]);
    let again = [
        start(),
        load_record(&bad),
        load_record(&good),
        vec![8, 0],
        load_record(&good),
        vec![8, 0],
    ]
    .concat();
    assert_eq!(
        run(&again),
        "1 0 0\n2 0 0\n2 4 0\n2 0 0\n8 0 7\n2 0 0\n8 0 7\n"
    );
}

#[test]
fn a_refused_call_does_not_end_the_program() {
    let input = [
        start(),
        record(&zonal(0, 0, &[0, 100, 0, 0])),
        record(&zonal(0, 1, &[0; 4])),
        record(&zonal(0, 0, &[i32::MIN, 0, 0, 0])),
        record(&emission(0, 2, u32::MAX)),
        record(&withdrawal(0, 2, 101)),
        record(&withdrawal(0, 2, 100)),
        record(&emission(0, 65_535, 0)),
        record(&meridional(0, &[100, 0, 0, 0, 0, 0, 0, 0])),
        record(&meridional(0, &[-1, 0, 0, 0, 0, 0, 0, 0])),
        record(&remap(&[0, 0, 0, 65_535])),
        record(&remap(&[0, 0, 0, 65_536])),
        record(&Call::Total { tracer: 1 }),
        record(&Call::Total { tracer: 0 }),
    ]
    .concat();
    let lines = "1 0 0\n2 0 0\n5 9 0\n5 5 0\n5 8 0\n3 6 0\n4 7 0\n4 0 0\n3 5 0\n\
                 6 10 0\n6 0 1\n7 11 0\n7 0 6\n8 5 0\n8 0 300\n";
    assert_eq!(run(&input), lines);
}

/// "6 and 7 are also given when a sum would pass 4,294,967,295" (document 02): a gas emitted and
/// withdrawn whole in turn, until a new load begins new books.
#[test]
fn the_17th_is_refused() {
    let whole = MOST_TRACER as u32;
    let emitted = (record(&emission(0, 2, whole)), "3 0 0\n", "3 6 0\n");
    let withdrawn = (record(&withdrawal(0, 2, whole)), "4 0 0\n", "4 7 0\n");
    for (loaded, first, second) in [(0, &emitted, &withdrawn), (whole, &withdrawn, &emitted)] {
        let load = load_record(&row_world([100; 4], [0, loaded, 0, 0]));
        let turns = [first.0.clone(), second.0.clone()].concat().repeat(16);
        let input = [
            grid_record(4, 1, 1, 1),
            load.clone(),
            turns,
            first.0.clone(),
            load,
            first.0.clone(),
        ]
        .concat();
        let turns = [first.1, second.1].concat().repeat(16);
        let lines = ["1 0 0\n2 0 0\n", &turns, first.2, "2 0 0\n", first.1].concat();
        assert_eq!(run(&input), lines);
    }
}

#[test]
fn refusal_14_at_every_byte() {
    let whole = case_p();
    let lines = "1 0 0\n2 0 0\n5 0 1\n8 0 400\n9 0 262\n";
    // The bytes at which a record ends.
    let ends = [0, 5, 5 + 49, 5 + 49 + 19, 5 + 49 + 19 + 2, whole.len()];
    for length in 0..=whole.len() {
        let done = ends.iter().filter(|&&end| 0 < end && end <= length).count();
        let mut expected: String = lines.split_inclusive('\n').take(done).collect();
        if !ends.contains(&length) {
            expected.push_str(&format!("{} 14 0\n", [1, 2, 5, 8, 9][done]));
        }
        assert_eq!(run(&whole[..length]), expected, "{length} bytes");
    }
}

#[test]
fn refusal_14_of_each_kind() {
    let calls = [
        emission(0, 0, 0),
        withdrawal(0, 0, 0),
        zonal(0, 0, &[0; 4]),
        meridional(0, &[0; 8]),
        remap(&[0, 0, 0, 65_536]),
        Call::Total { tracer: 0 },
        Call::Cell { tracer: 0, cell: 0 },
    ];
    for asked in calls {
        let body = record(&asked);
        let kind = body[0];
        let short = [start(), body[..body.len() - 1].to_vec()].concat();
        assert_eq!(run(&short), format!("1 0 0\n2 0 0\n{kind} 14 0\n"));
        let whole = [start(), body].concat();
        assert!(run(&whole).starts_with(&format!("1 0 0\n2 0 0\n{kind} 0 ")));
    }
    // Length before the call's own places.
    assert_eq!(run(&[1, 0, 0, 0]), "1 14 0\n");
    assert_eq!(run(&[1, 0, 0, 0, 0]), "1 1 0\n");
}

#[test]
fn refusal_15_program_grid() {
    let first_line = |w, r, k, n| run(&grid_record(w, r, k, n));
    // K·C at 2,048 and above: 32 layers of C = 2 + 62 = 64 cells, then of 65.
    assert_eq!(first_line(62, 1, 32, 2), "1 0 0\n");
    assert_eq!(first_line(63, 1, 32, 2), "1 15 0\n");
    assert_eq!(first_line(4, 1, 1, 2), "1 0 0\n");
    assert_eq!(first_line(4, 1, 1, 3), "1 15 0\n");
    assert_eq!(first_line(72, 44, 32, 8), "1 15 0\n");
    // 15 after 1.
    assert_eq!(first_line(63, 0, 32, 9), "1 1 0\n");
    assert_eq!(first_line(73, 1, 32, 3), "1 1 0\n");
    assert_eq!(first_line(4, 1, 1, 9), "1 1 0\n");
    // The program ends.
    let more = [grid_record(4, 1, 1, 3), start()].concat();
    assert_eq!(run(&more), "1 15 0\n");
    let more = [grid_record(3, 1, 1, 1), start()].concat();
    assert_eq!(run(&more), "1 1 0\n");
}

/// A random call that has a record.
fn random_recorded_call(random: &mut Random, world: &World) -> Call {
    loop {
        let asked = random_call(random, world);
        if has_record(&asked) {
            return asked;
        }
    }
}

/// A random input of whole records, and the lines it must print.
fn random_records(random: &mut Random) -> (Vec<u8>, String) {
    let mut world = random_world(random);
    while world.grid.n > 2 || cells(&world.grid) > 2_048 {
        world = random_world(random);
    }
    call(&mut world, &Call::Load);
    let g = world.grid;
    let mut input = grid_record(g.w as u8, g.r as u8, g.k as u8, g.n as u8);
    input.extend(load_record(&world));
    let mut lines = String::from("1 0 0\n2 0 0\n");
    for _ in 0..8 {
        let asked = random_recorded_call(random, &world);
        let bytes = record(&asked);
        let answer = call(&mut world, &asked);
        lines += &format!("{} {} {}\n", bytes[0], answer.number, answer.count);
        input.extend(bytes);
    }
    (input, lines)
}

#[test]
fn random_records_give_the_answers_of_the_calls() {
    let mut random = Random::new(6);
    for _ in 0..1_000 {
        let (input, lines) = random_records(&mut random);
        assert_eq!(run(&input), lines);
    }
}

#[test]
fn truncated_inputs_print_a_prefix_and_14() {
    let mut random = Random::new(7);
    for _ in 0..300 {
        let (input, lines) = random_records(&mut random);
        for _ in 0..10 {
            let length = random.next() as usize % input.len();
            let printed = run(&input[..length]);
            let whole_records = match printed.strip_suffix(" 14 0\n") {
                Some(cut) => &printed[..cut.rfind('\n').map_or(0, |at| at + 1)],
                None => &printed[..],
            };
            assert!(lines.starts_with(whole_records));
        }
    }
}

#[test]
fn random_inputs_never_panic() {
    let mut random = Random::new(8);
    for _ in 0..20_000 {
        let length = random.between(0, 60) as usize;
        let input: Vec<u8> = (0..length).map(|_| random.next() as u8).collect();
        run(&input);
        let small: Vec<u8> = input.iter().map(|byte| byte % 11).collect();
        run(&small);
        run(&[start(), small].concat());
        let (mut records, _) = random_records(&mut random);
        for _ in 0..3 {
            let place = random.next() as usize % records.len();
            records[place] = random.next() as u8;
        }
        run(&records);
    }
}
