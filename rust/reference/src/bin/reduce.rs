//! `reduce` once more: a book on standard input, what 01 and 02 say to print for it on standard output.

use std::io::{self, Read, Write};

use reference::report;

fn main() -> io::Result<()> {
    let mut input = Vec::new();
    io::stdin().read_to_end(&mut input)?;
    io::stdout().write_all(report::reduce(&input, report::NO_LIMIT).as_bytes())
}
