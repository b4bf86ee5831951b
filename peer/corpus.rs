//! `corpus < LOGS`: reads one log a line in hexadecimal, and prints for each
//! a line with `log` and the log, and then its listing.

mod engine;
mod hex;

use std::io::{self, BufRead, BufWriter, Write};
use std::process::ExitCode;

fn print_corpus() -> io::Result<()> {
    let mut out = BufWriter::new(io::stdout().lock());
    for line in io::stdin().lock().lines() {
        let line = line?;
        let log = hex::decode(&line)
            .ok_or_else(|| io::Error::other(format!("not hexadecimal: {line}")))?;
        writeln!(out, "{}", format!("log {line}").trim_end())?;
        write!(out, "{}", engine::listing(&log))?;
    }
    out.flush()
}

fn main() -> ExitCode {
    match print_corpus() {
        Ok(()) => ExitCode::SUCCESS,
        Err(error) => {
            eprintln!("corpus: {error}");
            ExitCode::from(2)
        }
    }
}
