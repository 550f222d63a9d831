//! `allocations` once more: a book, a count and so many proposals on standard input, a line for each on standard
//! output.

use reference::allocations_input::{LONGEST, lines};
use std::io::{self, Read, Write};

fn main() -> io::Result<()> {
    let mut input = Vec::new();
    io::stdin().take(LONGEST as u64 + 1).read_to_end(&mut input)?;
    io::stdout().write_all(lines(&input).as_bytes())
}
