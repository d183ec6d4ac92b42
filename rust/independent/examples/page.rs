//! Prints the page of the sheet on standard input, as the independent implementation has it.

use std::io::{self, Read, Write};

use independent::page::{MOST_READ, page};

fn main() -> io::Result<()> {
    let mut sheet = Vec::new();
    io::stdin().take(MOST_READ as u64).read_to_end(&mut sheet)?;
    io::stdout().write_all(page(&sheet).as_bytes())
}
