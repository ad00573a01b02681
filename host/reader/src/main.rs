//! Reads a reel file from standard input and prints its listing, as the
//! program `cadence` is to print it.

use std::io::{self, Read, Write};

fn main() -> io::Result<()> {
    let mut file = Vec::new();
    io::stdin().read_to_end(&mut file)?;
    io::stdout().write_all(reader::listing(&file).as_bytes())
}
