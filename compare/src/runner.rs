//! Compares the runner program with the second implementation's runner, byte for byte, on seeded inputs.
//! A difference is made smaller, written as a file and as text, and the exit status is 1.

use crate::inputs::{self, Input, Pieces};
use crate::reached::Reached;
use std::io::{Read, Write};
use std::process::{Child, ChildStdin, Command, ExitCode, Stdio};
use std::time::Duration;

/// From this number of inputs on, every pair of kind and answer that can be reached must be.
const FULL: u64 = 3_000;
/// One input in so many is written slowly, so that the program's reads return parts of records.
const SLOW: u64 = 32;
/// So many lines of the text and of each output are printed, the last ones; the files have the whole input.
const SHOWN: usize = 40;
const RECORDS: &str = concat!(env!("CARGO_MANIFEST_DIR"), "/../tools/records");
const DIFFERENCE: &str = concat!(env!("CARGO_MANIFEST_DIR"), "/target/difference");

/// The program, and whether it gets its input slowly.
struct Tested<'a> {
    program: &'a str,
    slow: bool,
}

pub fn compare(inputs: u64, program: &str) -> ExitCode {
    let mut reached = Reached::default();
    for number in 0..inputs {
        let Input { pieces, by_sum } = inputs::input(number);
        let slow = number % SLOW == 0;
        let tested = Tested { program, slow };
        let want = expected(&pieces);
        if tested.printed(&pieces) != want {
            println!("DIFFERENT: input {number}");
            tested.report(tested.shrink(pieces));
            return ExitCode::FAILURE;
        }
        reached.add(&want);
        reached.add_by_sum(by_sum);
    }
    println!("{inputs} inputs of the runner, no difference");
    reached.print();
    let faults = reached.faults(inputs >= FULL);
    for fault in &faults {
        println!("FAULT: {fault}");
    }
    if faults.is_empty() {
        ExitCode::SUCCESS
    } else {
        ExitCode::FAILURE
    }
}

/// What the second implementation prints.
fn expected(pieces: &Pieces) -> String {
    reference::runner::run(&pieces.concat())
}

impl Tested<'_> {
    fn differs(&self, pieces: &Pieces) -> bool {
        self.printed(pieces) != expected(pieces)
    }

    /// All that the program prints for the input, with a line more if it does not end as it should.
    fn printed(&self, pieces: &Pieces) -> String {
        let mut child = self.start();
        let mut input = child.stdin.take().unwrap();
        let mut output = child.stdout.take().unwrap();
        let mut bytes = Vec::new();
        std::thread::scope(|scope| {
            scope.spawn(move || feed(&mut input, pieces, self.slow));
            output.read_to_end(&mut bytes).expect("its output");
        });
        let status = child.wait().expect("its end");
        let ending = if status.success() {
            String::new()
        } else {
            format!("({status})\n")
        };
        String::from_utf8_lossy(&bytes).into_owned() + &ending
    }

    fn start(&self) -> Child {
        Command::new(self.program)
            .stdin(Stdio::piped())
            .stdout(Stdio::piped())
            .spawn()
            .unwrap_or_else(|error| panic!("{}: {error}", self.program))
    }

    /// Leaves out pieces, and then bytes at the end, as long as the two still differ.
    fn shrink(&self, mut pieces: Pieces) -> Pieces {
        let mut length = pieces.len() + 1;
        while pieces.len() < length {
            length = pieces.len();
            for i in (0..length).rev() {
                let mut trial = pieces.clone();
                trial.remove(i);
                if self.differs(&trial) {
                    pieces = trial;
                }
            }
        }
        while let Some(last) = pieces.last().filter(|last| !last.is_empty()) {
            let mut trial = pieces.clone();
            *trial.last_mut().unwrap() = last[..last.len() - 1].to_vec();
            if !self.differs(&trial) {
                break;
            }
            pieces = trial;
        }
        pieces
    }

    /// Writes the input as bytes and as text, and prints the text and what the two make of it.
    fn report(&self, pieces: Pieces) {
        let file = format!("{DIFFERENCE}.input");
        let text_file = format!("{DIFFERENCE}.txt");
        std::fs::write(&file, pieces.concat()).expect("the file of the input");
        let decoded = Command::new(RECORDS)
            .args(["decode", &file])
            .output()
            .expect("tools/records");
        std::fs::write(&text_file, &decoded.stdout).expect("the file of the text");
        println!("{}", ending(&String::from_utf8_lossy(&decoded.stdout)));
        println!("{}:\n{}", self.program, ending(&self.printed(&pieces)));
        println!("second implementation:\n{}", ending(&expected(&pieces)));
        println!("the input: {file}, as text: {text_file}");
        if self.slow {
            println!("(written slowly, in two parts for each record)");
        }
    }
}

/// The last lines of a text, with the number of those left out.
fn ending(text: &str) -> String {
    let lines: Vec<&str> = text.split_inclusive('\n').collect();
    let left_out = lines.len().saturating_sub(SHOWN);
    let note = if left_out == 0 {
        String::new()
    } else {
        format!("({left_out} lines before these)\n")
    };
    note + &lines[left_out..].concat()
}

/// Writes the input. A program that has ended does not read the rest, which is no fault.
fn feed(input: &mut ChildStdin, pieces: &Pieces, slow: bool) {
    if !slow {
        let _ = input.write_all(&pieces.concat());
        return;
    }
    for piece in pieces {
        let (first, rest) = piece.split_at(piece.len() / 2);
        for part in [first, rest] {
            if input.write_all(part).is_err() {
                return;
            }
            std::thread::sleep(Duration::from_micros(20));
        }
    }
}
