//! `reduce8` once more: as `reduce`, with at most 8 rounds.

use std::io::{self, Read, Write};

use reference::report;

fn main() -> io::Result<()> {
    let mut input = Vec::new();
    io::stdin().read_to_end(&mut input)?;
    io::stdout().write_all(report::reduce(&input, report::EIGHT).as_bytes())
}
