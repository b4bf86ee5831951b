//! `speed replay TIMES < LOG` or `speed read TIMES < LOG`: replays a log over
//! and over, or only reads its records, and tells how long that took.
//!
//! What came of it goes to standard output, the time in nanoseconds to
//! standard error. `speed make BETTOR CLASSES BYTES` writes such a log.

mod engine;

use std::hint::black_box;
use std::io::{self, Read, Write};
use std::time::Instant;

/// A number as the log writes it: seven bits to a byte, the low ones first.
fn put_number(body: &mut Vec<u8>, mut number: u32) {
    while number >= 128 {
        body.push((number % 128) as u8 | 0x80);
        number /= 128;
    }
    body.push(number as u8);
}

fn record(kind: u8, numbers: &[u32]) -> Vec<u8> {
    let mut bytes = vec![0, kind];
    for &number in numbers {
        put_number(&mut bytes, number);
    }
    bytes[0] = bytes.len() as u8 - 1;
    bytes
}

/// Numbers that look random and are the same each time.
struct Random(u64);

impl Random {
    fn below(&mut self, limit: u32) -> u32 {
        self.0 = self.0.wrapping_mul(6364136223846793005).wrapping_add(1442695040888963407);
        ((self.0 >> 33) % u64::from(limit)) as u32
    }
}

/// A log of at most so many bytes, and hardly fewer, of a line that is sound:
/// the weights fall by class, the alternative's do not. A rearm stands after
/// every 16 counts, so that an alarm leaves few counts unwatched.
fn make(bettor: u32, classes: u32, bytes: usize) -> Vec<u8> {
    let weights: Vec<u32> = (0..classes).map(|class| 3 * (classes - class)).collect();
    let total: u32 = weights.iter().sum();
    let mut table = vec![classes];
    table.extend(&weights);
    let mut log = record(1, &table);
    log.extend(record(2, &[4096, 1, bettor]));
    if bettor != 2 {
        let mut alternative = vec![classes];
        alternative.extend((0..classes).map(|_| 1));
        log.extend(record(3, &alternative));
    }
    let mut random = Random(u64::from(bettor * 100 + classes));
    let mut counts = 0;
    loop {
        let mut drawn = random.below(total);
        let mut class = 0;
        while drawn >= weights[class as usize] {
            drawn -= weights[class as usize];
            class += 1;
        }
        let mut count = record(4, &[counts + 1, class]);
        if counts % 16 == 15 {
            count.extend(record(5, &[]));
        }
        let end = record(6, &[counts + 1]);
        if log.len() + count.len() + end.len() > bytes {
            break;
        }
        log.extend(count);
        counts += 1;
    }
    log.extend(record(6, &[counts]));
    log
}

fn main() -> io::Result<()> {
    let words: Vec<String> = std::env::args().skip(1).collect();
    let number = |place: usize| words.get(place).and_then(|word| word.parse().ok()).unwrap_or(1);
    let mode = words.first().map_or("replay", String::as_str);
    if mode == "make" {
        return io::stdout().write_all(&make(number(1), number(2), number(3) as usize));
    }
    let mut log = Vec::new();
    io::stdin().read_to_end(&mut log)?;
    let work = if mode == "read" { engine::records_of } else { engine::rounds_of };
    let begun = Instant::now();
    let mut sum: u64 = 0;
    for _ in 0..number(1) {
        sum = sum.wrapping_add(work(black_box(&log)));
    }
    let took = begun.elapsed().as_nanos();
    println!("{sum}");
    eprintln!("{took}");
    Ok(())
}
