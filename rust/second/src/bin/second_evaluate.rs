//! Reads one field file on standard input and prints its report.

use second::file::FILE_AT_MOST;
use second::report::report;
use std::io::{self, Read, Write};

fn main() -> io::Result<()> {
    let mut file = Vec::new();
    // One byte past the limit is enough to know that a file is too long.
    let limit = FILE_AT_MOST as u64 + 1;
    io::stdin().lock().take(limit).read_to_end(&mut file)?;
    io::stdout().write_all(report(&file).as_bytes())
}
