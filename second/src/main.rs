//! Reads a journal from standard input and writes its book.

use second::journal::{waterbook, LONGEST};
use std::io::{self, Read, Write};

fn main() -> io::Result<()> {
    let mut input = Vec::new();
    // One byte more than the longest journal shows that it is too long.
    io::stdin().lock().take(LONGEST as u64 + 1).read_to_end(&mut input)?;
    io::stdout().lock().write_all(&waterbook(&input))
}
