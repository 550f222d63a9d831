//! The program `floor` in plain Rust: a book on standard input, the pages of the reduced model on standard output.

use std::io::{self, Read, Write};

fn main() -> io::Result<()> {
    let mut input = Vec::new();
    io::stdin().read_to_end(&mut input)?;
    io::stdout().write_all(&reference::pages::floor(&input))
}
