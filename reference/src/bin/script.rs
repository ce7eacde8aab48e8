//! Reads a script from standard input and prints its lines; see the README.

use std::io::{self, Read, Write};
use std::process::ExitCode;

fn main() -> io::Result<ExitCode> {
    let mut bytes = Vec::new();
    io::stdin().read_to_end(&mut bytes)?;
    let outcome = reference::script::run(&String::from_utf8_lossy(&bytes));
    io::stdout().write_all(outcome.lines.as_bytes())?;
    Ok(match outcome.error {
        None => ExitCode::SUCCESS,
        Some(error) => {
            eprintln!("{error}");
            ExitCode::FAILURE
        }
    })
}
