//! `compare [--all] PROGRAM < LOGS`: reads one log a line in hexadecimal, runs
//! the program on each, and compares its standard output with the listing of
//! the engine here.
//!
//! Ends with status 1 at the first difference. With `--all` it also ends with
//! status 1 if the refusals seen are not exactly those a listing can show.

mod engine;
mod hex;

use std::collections::BTreeMap;
use std::io::{self, BufRead, Write};
use std::process::{Command, ExitCode, Output, Stdio};
use std::thread;

struct Options {
    program: String,
    all: bool,
}

fn options() -> Option<Options> {
    let (flags, programs): (Vec<String>, Vec<String>) = std::env::args()
        .skip(1)
        .partition(|argument| argument.starts_with("--"));
    let [program] = programs.as_slice() else {
        return None;
    };
    if flags.iter().any(|flag| flag != "--all") {
        return None;
    }
    Some(Options {
        program: program.clone(),
        all: !flags.is_empty(),
    })
}

/// How many logs had each refusal, and how many had none.
struct Tally {
    sound: usize,
    refusals: BTreeMap<u8, usize>,
}

impl Tally {
    fn new() -> Tally {
        Tally {
            sound: 0,
            refusals: engine::REACHABLE
                .iter()
                .map(|&number| (number, 0))
                .collect(),
        }
    }

    fn add(&mut self, refusal: Option<u8>) {
        match refusal {
            None => self.sound += 1,
            Some(number) => *self.refusals.entry(number).or_insert(0) += 1,
        }
    }

    fn logs(&self) -> usize {
        self.sound + self.refusals.values().sum::<usize>()
    }

    fn line(&self) -> String {
        let mut line = format!("sound {}, refusals", self.sound);
        for (number, times) in &self.refusals {
            line.push_str(&format!(" {number}:{times}"));
        }
        line
    }

    fn never_seen(&self) -> Vec<u8> {
        let unseen = self.refusals.iter().filter(|&(_, &times)| times == 0);
        unseen.map(|(&number, _)| number).collect()
    }

    fn unexpected(&self) -> Vec<u8> {
        let seen = self.refusals.keys().copied();
        seen.filter(|number| !engine::REACHABLE.contains(number))
            .collect()
    }
}

/// Runs the program on a log. A program that stops reading early is no error.
fn run(program: &str, log: &[u8]) -> io::Result<Output> {
    let mut child = Command::new(program)
        .stdin(Stdio::piped())
        .stdout(Stdio::piped())
        .spawn()?;
    let input = child.stdin.take();
    thread::scope(|scope| {
        let writer = scope.spawn(move || match input {
            Some(mut input) => input.write_all(log),
            None => Ok(()),
        });
        let output = child.wait_with_output()?;
        match writer.join().expect("the writing thread does not panic") {
            Err(error) if error.kind() != io::ErrorKind::BrokenPipe => Err(error),
            _ => Ok(output),
        }
    })
}

fn show_difference(log: &[u8], expected: &str, output: &Output) {
    println!("log {}", hex::encode(log));
    println!("expected listing:\n{expected}");
    println!(
        "listing of the program ({}):\n{}",
        output.status,
        String::from_utf8_lossy(&output.stdout)
    );
}

/// Gives the tally, or nothing after a difference.
fn compare(program: &str) -> io::Result<Option<Tally>> {
    let mut tally = Tally::new();
    for line in io::stdin().lock().lines() {
        let line = line?;
        let log = hex::decode(&line)
            .ok_or_else(|| io::Error::other(format!("not hexadecimal: {line}")))?;
        let (expected, refusal) = engine::listing_and_refusal(&log);
        let output = run(program, &log)?;
        let ended_itself = output.status.code().is_some();
        if output.stdout != expected.as_bytes() || !ended_itself {
            show_difference(&log, &expected, &output);
            return Ok(None);
        }
        tally.add(refusal);
    }
    Ok(Some(tally))
}

fn report(tally: &Tally, all: bool) -> ExitCode {
    println!("{} logs, the same listing each", tally.logs());
    println!("{}", tally.line());
    let (never_seen, unexpected) = (tally.never_seen(), tally.unexpected());
    if all && !(never_seen.is_empty() && unexpected.is_empty()) {
        println!("refusals never seen: {never_seen:?}; seen but not expected: {unexpected:?}");
        return ExitCode::FAILURE;
    }
    ExitCode::SUCCESS
}

fn main() -> ExitCode {
    let Some(options) = options() else {
        eprintln!("usage: compare [--all] PROGRAM < LOGS");
        return ExitCode::from(2);
    };
    match compare(&options.program) {
        Ok(Some(tally)) => report(&tally, options.all),
        Ok(None) => ExitCode::FAILURE,
        Err(error) => {
            eprintln!("compare: {error}");
            ExitCode::from(2)
        }
    }
}
