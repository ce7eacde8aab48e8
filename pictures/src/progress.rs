//! How far a run is, on standard error: a line that grows on a terminal, and a line for each tenth elsewhere.

use std::io::{stderr, IsTerminal, Write};
use std::time::Instant;

pub struct Progress {
    name: &'static str,
    steps: u32,
    started: Instant,
    terminal: bool,
}

impl Progress {
    pub fn new(name: &'static str, steps: u32) -> Progress {
        Progress {
            name,
            steps,
            started: Instant::now(),
            terminal: stderr().is_terminal(),
        }
    }

    /// Shows that `done` steps are done, at each hundredth or tenth of the steps.
    pub fn step(&mut self, done: u32) {
        let parts = if self.terminal { 100 } else { 10 };
        if done * parts / self.steps == (done - 1) * parts / self.steps {
            return;
        }
        let last = done == self.steps;
        let (start, end) = match self.terminal {
            true => ("\r", if last { "\n" } else { "" }),
            false => ("", "\n"),
        };
        let share = 100 * done / self.steps;
        let seconds = self.started.elapsed().as_secs_f64();
        let (name, steps) = (self.name, self.steps);
        eprint!("{start}{name}: step {done} of {steps}, {share} %, {seconds:.1} s{end}");
        // A progress that cannot be shown is no reason to stop the run.
        let _ = stderr().flush();
    }
}
