//! The text front end.

use reference::script::run;

#[test]
fn case_p_as_a_script() {
    let script = "# case P\n\
                  grid 4 1 1 1\n\
                  air 100 100 100 100 100 100\n\
                  tracers 0 0 100 200 100 0\n\
                  \n\
                  load\n\
                  zonal 0 0 0 50 0 0\n\
                  total 0\n\
                  cell 0 3\n\
                  show\n";
    let outcome = run(script);
    assert_eq!(outcome.error, None);
    assert_eq!(
        outcome.lines,
        "load 0 0\nzonal 0 1\ntotal 0 400\ncell 0 262\n\
         air 100 100 50 150 100 100\ntracers 0 0 38 262 100 0\n"
    );
}

#[test]
fn every_call_and_wrong_lengths() {
    let script = "load\n\
                  grid 4 1 1 1\n\
                  load\n\
                  air 9 9 9 9 9 9\n\
                  tracers 0 0 0 0 0 0\n\
                  emission 0 5 7\n\
                  withdrawal 0 5 8\n\
                  meridional 0 0 0 0 0 -1 0 0 0\n\
                  meridional 0\n\
                  zonal 0 0 1\n\
                  remap 0 0 0 65536\n\
                  remap\n\
                  air\n\
                  show\n";
    let outcome = run(script);
    assert_eq!(outcome.error, None);
    assert_eq!(
        outcome.lines,
        "load 1 0\nload 2 0\nemission 0 0\nwithdrawal 7 0\nmeridional 0 1\nmeridional 2 0\n\
         zonal 2 0\nremap 0 6\nremap 2 0\nair\ntracers 0 0 0 0 0 7\n"
    );
}

#[test]
fn a_grid_line_gives_the_ledger_of_a_load() {
    let zeros = " 0".repeat(45);
    let script = "show_ledger\n\
                  grid 4 1 1 1\n\
                  air 9 9 9 9 9 9\n\
                  tracers 0 0 0 0 0 0\n\
                  add_emitter 0 5 4294967295 7\n\
                  show_ledger\n\
                  units_a_tick 0\n\
                  tick 0\n\
                  remove_emitter 0 8\n\
                  ledger 1 2 3\n\
                  tick 0\n\
                  show_ledger\n\
                  show\n\
                  grid 4 1 1 1\n\
                  remove_emitter 0 4294967295\n\
                  books 0 7 0 0\n\
                  remove_emitter 0 4294967295\n\
                  grid 4 1 1 9\n\
                  show_ledger\n";
    let outcome = run(script);
    assert_eq!(outcome.error, None);
    assert_eq!(
        outcome.lines,
        format!(
            "ledger\nadd_emitter 0 0\nledger 1 7 0 4294967295 5 7{zeros} 1 0 0 0 0 0 0 0\n\
             units_a_tick 0 7\ntick 0 0\nremove_emitter 19 0\ntick 2 0\nledger 1 2 3\n\
             air 9 9 9 9 9 9\ntracers 0 0 0 0 0 7\nremove_emitter 22 0\nremove_emitter 19 0\nledger\n"
        )
    );
}

#[test]
fn two_presses_in_a_script() {
    let script = "grid 4 1 1 1\n\
                  air 100 100 100 100 100 100\n\
                  tracers 0 0 100 200 100 0\n\
                  count_zonal 0 0 0 50 0 0\n\
                  show\n\
                  zonal_with_count 0 0 2 0 50 0 0\n\
                  zonal_with_count 0 0 1\n\
                  zonal_with_count 0 0 1 0 50 0 0\n\
                  show\n\
                  zonal_with_count 0 0\n";
    let outcome = run(script);
    let error = "line 10: 3 numbers are expected and 2 found".to_string();
    assert_eq!(outcome.error, Some(error));
    assert_eq!(
        outcome.lines,
        "count_zonal 0 1\nair 100 100 100 100 100 100\ntracers 0 0 100 200 100 0\n\
         zonal_with_count 20 0\nzonal_with_count 2 0\nzonal_with_count 0 1\n\
         air 100 100 50 150 100 100\ntracers 0 0 38 262 100 0\n"
    );
}

#[test]
fn a_limiter_in_a_script() {
    let zeros = " 0".repeat(51);
    let script = "grid 4 1 1 2\n\
                  air 100 100 100 100 100 100\n\
                  tracers 0 0 300 200 50 0 0 0 300 200 50 0\n\
                  set_limiter 1 3 4294967296 18446744073709551615\n\
                  set_limiter 1 4 0 0\n\
                  show_ledger\n\
                  set_limiter 1 2 5 7\n\
                  zonal 0 0 0 50 0 0\n\
                  show\n\
                  set_limiter 2 2 5 7\n\
                  load\n\
                  show_ledger\n";
    let outcome = run(script);
    assert_eq!(outcome.error, None);
    assert_eq!(
        outcome.lines,
        format!(
            "set_limiter 0 0\nset_limiter 21 0\n\
             ledger{zeros} 1 0 0 0 0 550 0 0{zeros} 3 0 1 4294967295 4294967295 550 0 0\n\
             set_limiter 0 0\nzonal 0 1\nair 100 100 50 150 100 100\n\
             tracers 0 0 150 350 50 0 0 0 138 362 50 0\nset_limiter 5 0\nload 0 0\n\
             ledger{zeros} 1 0 0 0 0 550 0 0{zeros} 1 0 0 0 0 550 0 0\n"
        )
    );
}

#[test]
fn books_in_a_script() {
    let zeros = " 0".repeat(51);
    let script = "grid 4 1 1 2\n\
                  air 100 100 100 100 100 100\n\
                  tracers 0 0 300 200 50 0 7\n\
                  show_ledger\n\
                  tracers 0 0 300 200 50 0 4294967295 1 0 0 0 0\n\
                  show_ledger\n\
                  tracers 0 0 300 200 50 0 0 0 300 200 50 0\n\
                  total 1\n\
                  books 1 500 60 11\n\
                  total 0\n\
                  books 1 500 60 10\n\
                  emission 1 0 3\n\
                  withdrawal 0 3 4\n\
                  show_ledger\n\
                  load\n\
                  show_ledger\n";
    let outcome = run(script);
    assert_eq!(outcome.error, None);
    let ledger = |one: &str, other: &str| {
        format!("ledger{zeros} 1 0 0 0 0 {one}{zeros} 1 0 0 0 0 {other}\n")
    };
    let lines = [
        ledger("550 0 0", "7 0 0"),
        ledger("550 0 0", "0 0 0"),
        "total 0 550\ntotal 22 0\nemission 0 0\nwithdrawal 0 0\n".to_string(),
        ledger("550 0 4", "500 63 10"),
        "load 0 0\n".to_string(),
        ledger("546 0 0", "553 0 0"),
    ];
    assert_eq!(outcome.lines, lines.concat());
}

/// A `tracers` line books in whole blocks of the grid's tracers only; a `ledger` line replaces all.
#[test]
fn books_of_other_lengths_in_a_script() {
    let block = "1 ".repeat(59);
    let script = format!(
        "ledger {block}\n\
         tracers 5\n\
         show_ledger\n\
         grid 4294967295 4294967295 4294967295 1\n\
         ledger {block}2 2\n\
         tracers 5 6\n\
         show_ledger\n\
         ledger 3 4\n\
         tracers 5\n\
         show_ledger\n\
         books 0 1 2 3\n"
    );
    let outcome = run(&script);
    let error = "line 11: the ledger has no block of tracer 0".to_string();
    assert_eq!(outcome.error, Some(error));
    let ones = " 1".repeat(56);
    assert_eq!(
        outcome.lines,
        format!("ledger{ones} 1 1 1\nledger{ones} 11 0 0 2 2\nledger 3 4\n")
    );
}

#[test]
fn pairs_of_a_column() {
    let script = "air 100 100 100\n\
                  pairs 0 0 150 0 200 0 0 65536\n\
                  air 70\n\
                  pairs 0 0 0 65536\n\
                  show\n";
    let outcome = run(script);
    assert_eq!(outcome.error, None);
    assert_eq!(
        outcome.lines,
        "pairs 4\n0 0 0 100\n1 0 100 150\n1 1 150 200\n2 2 200 300\n\
         pairs 1\n0 0 0 70\nair 70\ntracers\n"
    );
}

/// Lengths that don't fit, refusal 11, refusal 12.
#[test]
fn pairs_of_no_column_print_what_walk_prints() {
    let error = Some("line 4: no remap accepts this column".to_string());
    for table in [
        "",
        "0 0 0 65536",
        "0 0 150 0 200 0 0 65535",
        "0 0 200 0 200 0 0 65536",
    ] {
        for line in ["walk 0", "pairs"] {
            let lists = "load\nair 100 100 100\ntracers 0 100 200";
            let outcome = run(&format!("{lists}\n{line} {table}\nload\n"));
            assert_eq!(outcome.lines, "load 1 0\n");
            assert_eq!(outcome.error, error, "{line} {table}");
        }
    }
}

#[test]
fn a_bad_line_is_named() {
    for bad in [
        "lode",
        "grid 4 1 1",
        "grid 4 1 1 1 1",
        "air 1 -1",
        "total",
        "total x",
        "zonal 0",
        "zonal 0 0 1.5",
        "count_zonal 0",
        "count_zonal 0 0 x",
        "zonal_with_count 0 0",
        "zonal_with_count 0 0 -1 0 0 0 0",
        "zonal_with_count 0 0 4294967296 0 0 0 0",
        "zonal_with_count 0 0 1 2147483648",
        "meridional",
        "emission 0 0 4294967296",
        "load 1",
        "show 1",
        "show_ledger 1",
        "ledger -1",
        "books 0 0 0 0",
        "books 0 0 0",
        "books 0 0 0 0 0",
        "books 0 0 4294967296 0",
        "books 0 0 0 -1",
        "add_emitter 0 0 0",
        "remove_emitter 0 0 0",
        "tick",
        "units_a_tick 0 0",
        "set_limiter 0 1 0",
        "set_limiter 0 1 0 0 0",
        "set_limiter 4294967296 1 0 0",
        "set_limiter 0 4294967296 0 0",
        "set_limiter 0 -1 0 0",
        "set_limiter 0 1 -1 0",
        "set_limiter 0 1 0 18446744073709551616",
        "set_limiter 0 3 1.5 2",
        "pairs",
        "pairs x",
    ] {
        let outcome = run(&format!("load\n# fine\n{bad}\nload\n"));
        assert_eq!(outcome.lines, "load 1 0\n");
        assert!(outcome.error.unwrap().starts_with("line 3: "), "{bad}");
    }
}
