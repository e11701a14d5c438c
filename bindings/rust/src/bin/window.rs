//! The window program over the static library: reads standard input, and prints the answers.
use std::io::{self, Read, Write};

fn main() -> io::Result<()> {
    let mut input = Vec::new();
    io::stdin().take(65_536).read_to_end(&mut input)?;
    io::stdout().write_all(&tavumxa::respond(&input))
}
