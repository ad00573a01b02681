//! Writes a reel file to standard output: the example of docs/RULES.md, or, where the
//! first argument is `long`, one that is longer than the buffers of `cadence`.

use std::env;
use std::io::{self, Write};

use reader::reel::Reel;

fn main() -> io::Result<()> {
    let long = env::args().nth(1).is_some_and(|word| word == "long");
    let reel = if long { Reel::long() } else { Reel::example() };
    io::stdout().write_all(&reel.bytes())
}
