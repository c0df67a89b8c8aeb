//! Reads a job on standard input and prints what document 01's line program prints, by the original's search.

use std::io::{Read, Write};

fn main() -> std::io::Result<()> {
    let mut job = Vec::new();
    std::io::stdin().read_to_end(&mut job)?;
    std::io::stdout().write_all(oracle::lines::run(&job).as_bytes())
}
