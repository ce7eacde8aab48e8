//! The inputs of the cases x1 to x9 of the model's second table, and what this implementation answers.

use reference::script;

#[test]
fn further_cases_answer_as_stored() {
    let outcome = script::run(include_str!("../cases/further.txt"));
    assert_eq!(outcome.error, None);
    assert_eq!(outcome.lines, include_str!("../cases/further.out"));
}

/// The two of these cases that the scale 262,144 changed: the tracers before, and now.
#[test]
fn thin_gases_changed_two_of_them() {
    let lines: Vec<&str> = include_str!("../cases/further.out").lines().collect();
    for (before, now) in [
        ("0 322 110 27 1097 0", "0 321 110 27 1098 0"),
        (
            "68762 70299 70299 70299 70299 2104",
            "68766 70298 70298 70298 70298 2104",
        ),
    ] {
        assert!(lines.contains(&format!("tracers {now}").as_str()));
        assert!(!lines.contains(&format!("tracers {before}").as_str()));
    }
}
