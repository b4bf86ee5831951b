//! `replay < LOG`: prints the listing of the log on standard input.
//!
//! Ends with status 0 when a listing is printed, whatever its last line.

mod engine;

use std::io::{self, Read, Write};

/// Reads no further than is needed to see that a log is too long.
fn read_log() -> io::Result<Vec<u8>> {
    let mut log = Vec::new();
    io::stdin()
        .lock()
        .take(engine::LOG_LIMIT as u64 + 1)
        .read_to_end(&mut log)?;
    Ok(log)
}

fn main() -> io::Result<()> {
    let log = read_log()?;
    io::stdout().write_all(engine::listing(&log).as_bytes())
}
