//! Reads a roster and calls from standard input and prints the answers.

use std::io::{self, Read, Write};

use compare::plain::window::{self, MOST_BYTES};

fn main() -> io::Result<()> {
    let mut input = Vec::with_capacity(MOST_BYTES);
    io::stdin().lock().take(MOST_BYTES as u64).read_to_end(&mut input)?;
    io::stdout().write_all(&window::serve(&input))
}
