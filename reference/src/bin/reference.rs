//! Reads a record stream on standard input and prints its lines.

use std::io::{self, Read, Write};

fn main() -> io::Result<()> {
    let mut bytes = Vec::new();
    io::stdin().read_to_end(&mut bytes)?;
    io::stdout().write_all(reference::stream::run(&bytes).as_bytes())
}
