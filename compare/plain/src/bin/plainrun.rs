//! The runner of 01: `tables.bin` in the current folder, events on standard input.

use std::fs::File;
use std::io::{self, BufWriter, Read};

fn main() -> io::Result<()> {
    // "A missing tables.bin counts as length 0"
    let tables: Box<dyn Read> = match File::open("tables.bin") {
        Ok(file) => Box::new(file),
        Err(_) => Box::new(io::empty()),
    };
    let out = BufWriter::new(io::stdout().lock());
    plain::runner::play(tables, io::stdin().lock(), out)
}
