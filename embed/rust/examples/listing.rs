//! A job on standard input, its listing on standard output.

use std::io::{self, Read, Write};

/// One byte more than a job may have is enough to refuse it.
const MOST: u64 = 65_536;

fn main() -> io::Result<()> {
    let mut job = Vec::new();
    io::stdin().lock().take(MOST).read_to_end(&mut job)?;
    io::stdout().lock().write_all(&ondajusta::listing(&job))
}
