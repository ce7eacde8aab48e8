//! Reads standard input to its end and prints the runner's lines.

use std::io::{self, Read, Write};

fn main() -> io::Result<()> {
    let mut input = Vec::new();
    io::stdin().read_to_end(&mut input)?;
    io::stdout().write_all(reference::runner::run(&input).as_bytes())
}
