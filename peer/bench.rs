//! `bench PROVED PLAIN`: times the two programs of the benchmark on the same
//! logs, in turns, and prints nanoseconds for each record and their ratio.
//!
//! Both programs are called as `PROGRAM replay|read TIMES < LOG`, and tell on
//! standard output how many counts or records they came through, and on
//! standard error how many nanoseconds that took. Of many short runs the
//! quickest counts: what else the machine does only ever adds.

use std::fs;
use std::io::{self, Write};
use std::process::{Command, Stdio};

const TURNS: usize = 25;
const LONGEST: usize = 65_536;
const BETTORS: [(u32, &str); 3] = [(1, "fixed"), (2, "adaptive"), (3, "mixture")];

fn problem(what: &str) -> io::Error {
    io::Error::new(io::ErrorKind::Other, what)
}

/// Runs a program on some input; its standard output, its standard error, and
/// the most memory that it was seen to hold, in KiB.
fn run(program: &str, words: &[String], input: &[u8]) -> io::Result<(Vec<u8>, Vec<u8>, u64)> {
    let mut child = Command::new(program)
        .args(words)
        .stdin(Stdio::piped())
        .stdout(Stdio::piped())
        .stderr(Stdio::piped())
        .spawn()?;
    let status = format!("/proc/{}/status", child.id());
    let mut stdin = child.stdin.take().ok_or_else(|| problem("no standard input"))?;
    let bytes = input.to_vec();
    let writer = std::thread::spawn(move || stdin.write_all(&bytes));
    let mut peak = 0;
    while child.try_wait()?.is_none() {
        let text = fs::read_to_string(&status).unwrap_or_default();
        let held = text.lines().find_map(|line| line.strip_prefix("VmHWM:"));
        let kib = held.and_then(|rest| rest.split_whitespace().next()?.parse().ok());
        peak = peak.max(kib.unwrap_or(0));
        std::thread::sleep(std::time::Duration::from_micros(300));
    }
    writer.join().expect("the writing thread does not panic")?;
    let output = child.wait_with_output()?;
    if !output.status.success() {
        return Err(problem("a program failed"));
    }
    Ok((output.stdout, output.stderr, peak))
}

fn number(text: &[u8]) -> io::Result<u64> {
    let text = String::from_utf8_lossy(text);
    text.trim().parse().map_err(|_| problem("no number was told"))
}

/// Nanoseconds for each record and the peak memory, of one run.
fn timed(program: &str, mode: &str, times: u32, log: &[u8]) -> io::Result<(f64, u64, u64)> {
    let words = [mode.to_string(), times.to_string()];
    let (told, took, peak) = run(program, &words, log)?;
    let records = number(&told)?;
    Ok((number(&took)? as f64 / records as f64, records / u64::from(times), peak))
}

struct Pair {
    proved: f64,
    plain: f64,
    records: u64,
}

impl Pair {
    fn ratio(&self) -> f64 {
        self.proved / self.plain
    }
}

/// The quickest of many runs of each program, one after the other in turns.
fn raced(programs: &[String; 2], mode: &str, log: &[u8]) -> io::Result<Pair> {
    let times = (4_000_000 / (log.len() as u32 + 1)).max(1);
    let mut pair = Pair {
        proved: f64::INFINITY,
        plain: f64::INFINITY,
        records: 0,
    };
    for _ in 0..TURNS {
        let (proved, records, _) = timed(&programs[0], mode, times, log)?;
        let (plain, same, _) = timed(&programs[1], mode, times, log)?;
        if records != same {
            return Err(problem("the two programs disagree"));
        }
        pair.proved = pair.proved.min(proved);
        pair.plain = pair.plain.min(plain);
        pair.records = records;
    }
    Ok(pair)
}

fn log_of(plain: &str, bettor: u32, classes: u32, bytes: usize) -> io::Result<Vec<u8>> {
    let words = ["make".to_string(), bettor.to_string(), classes.to_string(), bytes.to_string()];
    Ok(run(plain, &words, &[])?.0)
}

fn row(name: &str, classes: u32, bytes: usize, pair: &Pair) {
    println!(
        "{name:<10}{classes:>8}{bytes:>8}{:>9}{:>9.1}{:>9.1}{:>8.2}",
        pair.records,
        pair.proved,
        pair.plain,
        pair.ratio()
    );
}

fn head(title: &str) {
    println!("\n{title}");
    println!("{:<10}{:>8}{:>8}{:>9}{:>9}{:>9}{:>8}", "bettor", "classes", "bytes", "records", "proved", "plain", "ratio");
}

fn main() -> io::Result<()> {
    let words: Vec<String> = std::env::args().skip(1).collect();
    let Ok(programs) = <[String; 2]>::try_from(words) else {
        return Err(problem("usage: bench PROVED PLAIN"));
    };
    head("Replay: nanoseconds for each count record");
    for (bettor, name) in BETTORS {
        for classes in [2, 16] {
            let log = log_of(&programs[1], bettor, classes, LONGEST)?;
            row(name, classes, log.len(), &raced(&programs, "replay", &log)?);
        }
    }
    head("Reading alone: nanoseconds for each record");
    for (bettor, classes) in [(1, 2), (3, 16)] {
        let log = log_of(&programs[1], bettor, classes, LONGEST)?;
        row(BETTORS[bettor as usize - 1].1, classes, log.len(), &raced(&programs, "read", &log)?);
    }
    head("Replay, by the length of the log");
    for bytes in [4_096, 16_384, LONGEST] {
        let log = log_of(&programs[1], 1, 2, bytes)?;
        row("fixed", 2, log.len(), &raced(&programs, "replay", &log)?);
    }
    head("Replay, by the number of classes");
    for classes in [2, 4, 8, 12, 16] {
        let log = log_of(&programs[1], 3, classes, LONGEST)?;
        row("mixture", classes, log.len(), &raced(&programs, "replay", &log)?);
    }
    println!("\nPeak memory, in KiB");
    for bytes in [4_096, LONGEST] {
        let log = log_of(&programs[1], 3, 16, bytes)?;
        let (_, _, proved) = timed(&programs[0], "replay", 400, &log)?;
        let (_, _, plain) = timed(&programs[1], "replay", 400, &log)?;
        println!("{:>8} bytes: proved {proved}, plain {plain}", log.len());
    }
    Ok(())
}
