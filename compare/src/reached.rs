//! Which pairs of kind and answer the runner's lines reached, and why the others cannot be reached.

/// Row 0 is for all unknown kinds, row k for kind k.
const ROWS: usize = 10;
const ANSWERS: usize = 23;
const COUNTS: usize = 17;

const ALL_CALLS: &[usize] = &[2, 3, 4, 5, 6, 7, 8, 9];
const ALL_KINDS: &[usize] = &[1, 2, 3, 4, 5, 6, 7, 8, 9];
/// The refusals by the sums of a book: the answer, and the sum.
pub const BY_SUM: [(usize, &str); 2] = [(6, "emitted"), (7, "withdrawn")];

/// Answers that some kinds never get, and why.
struct Never {
    kinds: &'static [usize],
    answers: &'static [usize],
    why: &'static str,
}

const NEVER: [Never; 17] = [
    Never {
        kinds: &[0],
        answers: &[
            0, 1, 2, 3, 4, 5, 6, 7, 8, 9, 10, 11, 12, 14, 15, 16, 17, 18, 19, 20, 21, 22,
        ],
        why: "an unknown kind is 13 before anything else is tested",
    },
    Never {
        kinds: ALL_CALLS,
        answers: &[1],
        why: "the grid was accepted with kind 1, comes once and stays",
    },
    Never {
        kinds: &[1],
        answers: &[2, 3, 4],
        why: "a grid's record lends no list, no air and no tracers",
    },
    Never {
        kinds: ALL_CALLS,
        answers: &[2],
        why: "the program itself cuts each list to the grid's length; an input too short for it is 14",
    },
    Never {
        kinds: &[3, 4, 5, 6, 7, 8, 9],
        answers: &[3, 4],
        why: "they need an accepted load, and a world reached from one never meets 3 or 4 (law `reached`)",
    },
    Never {
        kinds: &[1, 2, 7],
        answers: &[5],
        why: "the record names no tracer, cell, layer or row",
    },
    Never {
        kinds: &[1, 2, 4, 5, 6, 7, 8, 9],
        answers: &[6],
        why: "place 6 is tested in an emission (kind 3) only",
    },
    Never {
        kinds: &[1, 2, 3, 5, 6, 7, 8, 9],
        answers: &[7],
        why: "place 7 is tested in a withdrawal (kind 4) only",
    },
    Never {
        kinds: &[1, 2, 3, 4, 7, 8, 9],
        answers: &[8],
        why: "only sweeps (kinds 5 and 6) have fluxes",
    },
    Never {
        kinds: &[1, 2, 3, 4, 6, 7, 8, 9],
        answers: &[9],
        why: "place 9 is tested in a zonal sweep (kind 5) only",
    },
    Never {
        kinds: &[1, 2, 3, 4, 5, 7, 8, 9],
        answers: &[10],
        why: "place 10 is tested in a meridional sweep (kind 6) only",
    },
    Never {
        kinds: &[1, 2, 3, 4, 5, 6, 8, 9],
        answers: &[11, 12],
        why: "places 11 and 12 are tested in a remap (kind 7) only",
    },
    Never {
        kinds: ALL_CALLS,
        answers: &[15],
        why: "place 15 is tested in the grid's record (kind 1) only",
    },
    Never {
        kinds: ALL_KINDS,
        answers: &[16, 17, 18, 19, 20],
        why: "the calls that test places 16 to 20 have no record",
    },
    Never {
        kinds: ALL_KINDS,
        answers: &[21],
        why: "a load gives every tracer limiter 1 with bounds of 0, and no record sets another",
    },
    Never {
        kinds: &[1, 2],
        answers: &[22],
        why: "a grid's record and a load test no book",
    },
    Never {
        kinds: &[3, 4, 5, 6, 7, 8, 9],
        answers: &[22],
        why: "they need an accepted load, and in a world reached from one every book balances (law `reached`)",
    },
];

fn is_never(kind: usize, answer: usize) -> bool {
    NEVER
        .iter()
        .any(|never| never.kinds.contains(&kind) && never.answers.contains(&answer))
}

#[derive(Default)]
pub struct Reached {
    pairs: [[u64; ANSWERS]; ROWS],
    counts: [u64; COUNTS],
    by_sum: [u64; BY_SUM.len()],
}

impl Reached {
    /// Counts the lines that the runner printed.
    pub fn add(&mut self, lines: &str) {
        for line in lines.lines() {
            let numbers: Vec<usize> = line.split(' ').map(|n| n.parse().unwrap()).collect();
            let (kind, answer, count) = (numbers[0], numbers[1], numbers[2]);
            self.pairs[if kind < ROWS { kind } else { 0 }][answer] += 1;
            if (kind, answer) == (5, 0) {
                self.counts[count] += 1;
            }
        }
    }

    /// Counts the records that were refused by a sum alone.
    pub fn add_by_sum(&mut self, by_sum: [u64; BY_SUM.len()]) {
        for (times, more) in self.by_sum.iter_mut().zip(by_sum) {
            *times += more;
        }
    }

    pub fn print(&self) {
        println!("lines by kind (down; unknown kinds as one) and answer (across):");
        let header: String = (0..ANSWERS).map(|answer| format!("{answer:>6}")).collect();
        println!("       {header}");
        for (kind, row) in self.pairs.iter().enumerate() {
            let cells: String = (0..ANSWERS)
                .map(|answer| cell(kind, answer, row[answer]))
                .collect();
            println!("{:>7}{cells}", name(kind));
        }
        let counts: Vec<String> = (1..COUNTS)
            .map(|n| format!("{n}: {}", self.counts[n]))
            .collect();
        println!("accepted zonal sweeps by count: {}", counts.join(", "));
        for ((answer, sum), times) in BY_SUM.iter().zip(self.by_sum) {
            println!("{answer} by the {sum} sum alone: {times}");
        }
        println!("pairs marked - are never reached:");
        for never in &NEVER {
            let kinds: Vec<String> = never.kinds.iter().map(|kind| name(*kind)).collect();
            let answers: Vec<String> = never.answers.iter().map(usize::to_string).collect();
            println!(
                "  answer {}, kind {}: {}",
                answers.join(" "),
                kinds.join(" "),
                never.why
            );
        }
    }

    /// What was reached though there is a reason against it; if the run is a full one, also what was
    /// not reached though there is none.
    pub fn faults(&self, full: bool) -> Vec<String> {
        let mut faults = Vec::new();
        for (kind, row) in self.pairs.iter().enumerate() {
            for (answer, times) in row.iter().enumerate() {
                if is_never(kind, answer) && *times > 0 {
                    faults.push(format!(
                        "kind {} got {answer}, which it never should",
                        name(kind)
                    ));
                } else if full && !is_never(kind, answer) && *times == 0 {
                    faults.push(format!("no record of kind {} got {answer}", name(kind)));
                }
            }
        }
        for count in (1..COUNTS).filter(|count| full && self.counts[*count] == 0) {
            faults.push(format!("no zonal sweep had the count {count}"));
        }
        for ((answer, sum), times) in BY_SUM.iter().zip(self.by_sum) {
            if full && times == 0 {
                faults.push(format!("no record got {answer} by the {sum} sum alone"));
            }
        }
        faults
    }
}

fn name(kind: usize) -> String {
    if kind == 0 {
        "unknown".to_string()
    } else {
        kind.to_string()
    }
}

fn cell(kind: usize, answer: usize, times: u64) -> String {
    if is_never(kind, answer) && times == 0 {
        format!("{:>6}", "-")
    } else {
        format!("{times:>6}")
    }
}
