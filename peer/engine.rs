//! Replays a plant log: reads its records, runs the monitor over its counts
//! and gives the listing.

use std::fmt;

/// The greatest length of a log, in bytes.
pub const LOG_LIMIT: usize = 65_536;

const BOOK_PLACES: usize = 64;
const BODY_LIMIT: usize = 63;
const LEAST_CLASSES: u32 = 2;
const MOST_CLASSES: u32 = 16;
/// The greatest weight, and also the greatest total of a table.
const WEIGHT_LIMIT: u64 = 65_536;
const THRESHOLD_LIMIT: u32 = 4_096;
const ROUND_LIMIT: u32 = 1_000_000;
const LEARNED_LIMIT: u64 = 1_000_000;
/// The wealth of one bet.
const BET: u64 = 1 << 20;
/// The factor that leaves a wealth as it is.
const EVEN: u64 = 4_096;
/// Above this wealth a restart rule adds nothing.
const RESTART_LIMIT: u64 = 1 << 32;

/// The refusal numbers that a listing can show.
///
/// The other numbers never show:
/// - 6: both parts of the mixture are made over the one table of the log.
/// - 26: the replay writes no record.
/// - 27: the receive buffer of the replay always has 63 bytes.
/// - 28: the replay asks for the kind first, and a wrong kind is 41.
/// - 31: a count record takes at least 4 bytes, so a log has at most 16,384 of them.
/// - 32: the replay stakes only while armed and rearms only between rounds.
/// - 34: the replay settles the slip it has just been given.
/// - 38: an entry's day is above all earlier count days, or the record is refused by 43.
#[allow(dead_code)]
pub const REACHABLE: [u8; 20] = [
    1, 2, 3, 4, 8, 11, 12, 13, 21, 22, 23, 24, 25, 37, 41, 43, 44, 45, 46, 48,
];

/// Where a check stands.
#[derive(Clone, Copy, Debug, PartialEq)]
enum Layer {
    Value,
    Number,
    Record,
    Monitor,
    Book,
    Replay,
}

impl fmt::Display for Layer {
    fn fmt(&self, out: &mut fmt::Formatter) -> fmt::Result {
        out.write_str(match self {
            Layer::Value => "value",
            Layer::Number => "number",
            Layer::Record => "record",
            Layer::Monitor => "monitor",
            Layer::Book => "book",
            Layer::Replay => "replay",
        })
    }
}

/// Why a call or a record is refused.
#[derive(Clone, Copy, Debug, PartialEq)]
enum Cause {
    ClassCount,
    Weight,
    Total,
    Threshold,
    OtherClassCount,
    FifthByte,
    NumberCut,
    LastGroupZero,
    NoRecord,
    Length,
    BodyCut,
    Kind,
    RuleOrBettor,
    BytesLeft,
    WrongState,
    RoundsUsedUp,
    SlipDoesNotFit,
    BookFull,
    EntryDay,
    LogTooLong,
    NotAllowedHere,
    DayOrder,
    EndNumber,
    BytesAfterEnd,
}

impl Cause {
    fn number(self) -> u8 {
        self.number_and_layer().0
    }

    fn layer(self) -> Layer {
        self.number_and_layer().1
    }

    fn number_and_layer(self) -> (u8, Layer) {
        match self {
            Cause::ClassCount => (1, Layer::Value),
            Cause::Weight => (2, Layer::Value),
            Cause::Total => (3, Layer::Value),
            Cause::Threshold => (4, Layer::Value),
            Cause::OtherClassCount => (8, Layer::Value),
            Cause::NumberCut => (11, Layer::Number),
            Cause::LastGroupZero => (12, Layer::Number),
            Cause::FifthByte => (13, Layer::Number),
            Cause::Length => (21, Layer::Record),
            Cause::BodyCut => (22, Layer::Record),
            Cause::Kind => (23, Layer::Record),
            Cause::BytesLeft => (24, Layer::Record),
            Cause::RuleOrBettor => (25, Layer::Record),
            Cause::NoRecord => (45, Layer::Record),
            Cause::RoundsUsedUp => (31, Layer::Monitor),
            Cause::WrongState => (32, Layer::Monitor),
            Cause::SlipDoesNotFit => (34, Layer::Monitor),
            Cause::BookFull => (37, Layer::Book),
            Cause::EntryDay => (38, Layer::Book),
            Cause::NotAllowedHere => (41, Layer::Replay),
            Cause::DayOrder => (43, Layer::Replay),
            Cause::EndNumber => (44, Layer::Replay),
            Cause::BytesAfterEnd => (46, Layer::Replay),
            Cause::LogTooLong => (48, Layer::Replay),
        }
    }
}

/// A cause with the record it belongs to and the byte where that record begins.
#[derive(Clone, Copy)]
struct Fault {
    cause: Cause,
    record: usize,
    byte: usize,
}

/// Weights of the classes, with their total.
#[derive(Clone)]
struct Table {
    weights: Vec<u64>,
    total: u64,
}

impl Table {
    fn classes(&self) -> usize {
        self.weights.len()
    }

    /// Every count that has no class of its own belongs to the last class.
    fn class_of(&self, count: u32) -> usize {
        (count as usize).min(self.classes() - 1)
    }
}

/// A factor for each class, and zeros behind them.
type Row = [u64; MOST_CLASSES as usize];

enum Bettor {
    /// Its row never changes.
    Fixed(Row),
    Adaptive { tallies: Row, learned: u64 },
    Mixture(Box<Bettor>, Box<Bettor>),
}

impl Bettor {
    fn fixed(null: &Table, alternative: &Table) -> Bettor {
        let mut row = [0; MOST_CLASSES as usize];
        for class in 0..null.classes() {
            row[class] = EVEN * alternative.weights[class] * null.total
                / (alternative.total * null.weights[class]);
        }
        Bettor::Fixed(row)
    }

    fn adaptive() -> Bettor {
        Bettor::Adaptive {
            tallies: [0; MOST_CLASSES as usize],
            learned: 0,
        }
    }

    fn row(&self, null: &Table) -> Row {
        let mut row = [0; MOST_CLASSES as usize];
        match self {
            Bettor::Fixed(fixed) => row = *fixed,
            Bettor::Adaptive { tallies, learned } => {
                for (class, weight) in null.weights.iter().enumerate() {
                    row[class] =
                        EVEN * (weight + tallies[class]) * null.total / ((null.total + learned) * weight);
                }
            }
            Bettor::Mixture(first, second) => {
                let (first, second) = (first.row(null), second.row(null));
                for class in 0..row.len() {
                    row[class] = (first[class] + second[class]) / 2;
                }
            }
        }
        row
    }

    fn learn(&mut self, class: usize) {
        match self {
            Bettor::Fixed(_) => {}
            Bettor::Adaptive { tallies, learned } => {
                if *learned < LEARNED_LIMIT {
                    tallies[class] += 1;
                    *learned += 1;
                }
            }
            Bettor::Mixture(first, second) => {
                first.learn(class);
                second.learn(class);
            }
        }
    }
}

#[derive(Clone, Copy)]
enum Rule {
    Sum,
    Larger,
}

impl Rule {
    fn base(self, wealth: u64) -> u64 {
        match self {
            _ if wealth > RESTART_LIMIT => wealth,
            Rule::Sum => wealth + BET,
            Rule::Larger => wealth.max(BET),
        }
    }

    fn letter(self) -> char {
        match self {
            Rule::Sum => 'S',
            Rule::Larger => 'P',
        }
    }
}

enum State {
    Armed,
    /// Holds the row that the next settlement uses.
    Staked(Row),
    Rung,
}

struct Monitor {
    null: Table,
    bettor: Bettor,
    rule: Rule,
    threshold: u32,
    state: State,
    wealth: u64,
    rounds: u32,
    alarms: u32,
}

impl Monitor {
    fn new(null: Table, bettor: Bettor, rule: Rule, threshold: u32) -> Monitor {
        Monitor {
            null,
            bettor,
            rule,
            threshold,
            state: State::Armed,
            wealth: 0,
            rounds: 0,
            alarms: 0,
        }
    }

    fn is_rung(&self) -> bool {
        matches!(self.state, State::Rung)
    }

    fn stake(&mut self) -> Result<(), Cause> {
        if !matches!(self.state, State::Armed) {
            return Err(Cause::WrongState);
        }
        if self.rounds >= ROUND_LIMIT {
            return Err(Cause::RoundsUsedUp);
        }
        self.state = State::Staked(self.bettor.row(&self.null));
        Ok(())
    }

    /// Settles the staked round with a count and answers whether it rang.
    fn settle(&mut self, count: u32) -> Result<bool, Cause> {
        let State::Staked(row) = &self.state else {
            return Err(Cause::SlipDoesNotFit);
        };
        let class = self.null.class_of(count);
        self.wealth = self.rule.base(self.wealth) * row[class] / EVEN;
        self.bettor.learn(class);
        self.rounds += 1;
        let rang = self.wealth >= u64::from(self.threshold) * BET;
        if rang {
            self.alarms += 1;
            self.state = State::Rung;
        } else {
            self.state = State::Armed;
        }
        Ok(rang)
    }

    fn rearm(&mut self) -> Result<(), Cause> {
        if matches!(self.state, State::Staked(_)) {
            return Err(Cause::WrongState);
        }
        self.wealth = 0;
        self.state = State::Armed;
        Ok(())
    }
}

#[derive(Clone, Copy)]
enum BettorChoice {
    Fixed,
    Adaptive,
    Mixture,
}

#[derive(Clone, Copy)]
struct Setup {
    threshold: u32,
    rule: Rule,
    bettor: BettorChoice,
}

enum Record {
    Table(Table),
    Setup(Setup),
    Alternative(Table),
    Count { day: u32, count: u32 },
    Rearm,
    End { counts: u32 },
}

/// The fields of a body, read from left to right.
struct Fields<'a> {
    rest: &'a [u8],
}

impl Fields<'_> {
    fn number(&mut self) -> Result<u32, Cause> {
        let mut value = 0;
        let mut shift = 0;
        loop {
            let (&byte, rest) = self.rest.split_first().ok_or(Cause::NumberCut)?;
            if shift == 28 && byte > 0x0f {
                return Err(Cause::FifthByte);
            }
            self.rest = rest;
            value |= u32::from(byte & 0x7f) << shift;
            if byte & 0x80 == 0 {
                if byte == 0 && shift > 0 {
                    return Err(Cause::LastGroupZero);
                }
                return Ok(value);
            }
            shift += 7;
        }
    }

    /// Reads the number of classes and the weights. The total is judged once
    /// all weights are read.
    fn table(&mut self, least_weight: u64) -> Result<Table, Cause> {
        let classes = self.number()?;
        if !(LEAST_CLASSES..=MOST_CLASSES).contains(&classes) {
            return Err(Cause::ClassCount);
        }
        let mut weights = Vec::new();
        for _ in 0..classes {
            let weight = u64::from(self.number()?);
            if !(least_weight..=WEIGHT_LIMIT).contains(&weight) {
                return Err(Cause::Weight);
            }
            weights.push(weight);
        }
        let total = weights.iter().sum();
        if !(1..=WEIGHT_LIMIT).contains(&total) {
            return Err(Cause::Total);
        }
        Ok(Table { weights, total })
    }

    fn setup(&mut self) -> Result<Setup, Cause> {
        let threshold = self.number()?;
        if !(1..=THRESHOLD_LIMIT).contains(&threshold) {
            return Err(Cause::Threshold);
        }
        let rule = match self.number()? {
            1 => Rule::Sum,
            2 => Rule::Larger,
            _ => return Err(Cause::RuleOrBettor),
        };
        let bettor = match self.number()? {
            1 => BettorChoice::Fixed,
            2 => BettorChoice::Adaptive,
            3 => BettorChoice::Mixture,
            _ => return Err(Cause::RuleOrBettor),
        };
        Ok(Setup {
            threshold,
            rule,
            bettor,
        })
    }

    fn finish(&self) -> Result<(), Cause> {
        if self.rest.is_empty() {
            Ok(())
        } else {
            Err(Cause::BytesLeft)
        }
    }
}

fn parse_body(kind: u8, fields: &[u8]) -> Result<Record, Cause> {
    let mut fields = Fields { rest: fields };
    let record = match kind {
        1 => Record::Table(fields.table(1)?),
        2 => Record::Setup(fields.setup()?),
        3 => Record::Alternative(fields.table(0)?),
        4 => Record::Count {
            day: fields.number()?,
            count: fields.number()?,
        },
        5 => Record::Rearm,
        6 => Record::End {
            counts: fields.number()?,
        },
        _ => return Err(Cause::Kind),
    };
    fields.finish()?;
    Ok(record)
}

/// A position in a log: the byte where the next record begins, and how many
/// records come before it.
struct Reader<'a> {
    log: &'a [u8],
    byte: usize,
    records_read: usize,
}

impl<'a> Reader<'a> {
    fn new(log: &'a [u8]) -> Reader<'a> {
        Reader {
            log,
            byte: 0,
            records_read: 0,
        }
    }

    fn rest(&self) -> &'a [u8] {
        &self.log[self.byte..]
    }

    fn record_number(&self) -> usize {
        self.records_read + 1
    }

    fn fault(&self, cause: Cause) -> Fault {
        Fault {
            cause,
            record: self.record_number(),
            byte: self.byte,
        }
    }

    /// Judges the next record whole and does not move on.
    fn peek(&self) -> Result<Record, Cause> {
        let (&length, following) = self.rest().split_first().ok_or(Cause::NoRecord)?;
        let length = usize::from(length);
        if length == 0 || length > BODY_LIMIT {
            return Err(Cause::Length);
        }
        let body = following.get(..length).ok_or(Cause::BodyCut)?;
        parse_body(body[0], &body[1..])
    }

    /// Moves past a record that has been judged sound.
    fn move_on(&mut self) {
        self.byte += 1 + usize::from(self.log[self.byte]);
        self.records_read += 1;
    }
}

trait Entry {
    fn day(&self) -> u32;
}

struct Alarm {
    day: u32,
    round: u32,
    wealth: u64,
}

struct Unwatched {
    day: u32,
    record: usize,
}

impl Entry for Alarm {
    fn day(&self) -> u32 {
        self.day
    }
}

impl Entry for Unwatched {
    fn day(&self) -> u32 {
        self.day
    }
}

struct Book<E> {
    entries: Vec<E>,
}

impl<E: Entry> Book<E> {
    fn new() -> Book<E> {
        Book {
            entries: Vec::new(),
        }
    }

    fn check_place(&self) -> Result<(), Cause> {
        if self.entries.len() < BOOK_PLACES {
            Ok(())
        } else {
            Err(Cause::BookFull)
        }
    }

    fn enter(&mut self, entry: E) -> Result<(), Cause> {
        self.check_place()?;
        if let Some(last) = self.entries.last() {
            if entry.day() <= last.day() {
                return Err(Cause::EntryDay);
            }
        }
        self.entries.push(entry);
        Ok(())
    }
}

/// What the count records have brought about so far.
struct Days {
    alarms: Book<Alarm>,
    unwatched: Book<Unwatched>,
    last_day: Option<u32>,
    counts: u32,
}

impl Days {
    fn new() -> Days {
        Days {
            alarms: Book::new(),
            unwatched: Book::new(),
            last_day: None,
            counts: 0,
        }
    }

    fn count(
        &mut self,
        monitor: &mut Monitor,
        day: u32,
        count: u32,
        record: usize,
    ) -> Result<(), Cause> {
        if self.last_day.is_some_and(|last| day <= last) {
            return Err(Cause::DayOrder);
        }
        if monitor.is_rung() {
            self.unwatched.enter(Unwatched { day, record })?;
        } else {
            self.watch(monitor, day, count)?;
        }
        self.last_day = Some(day);
        self.counts += 1;
        Ok(())
    }

    /// Plays one round. The alarm book needs a free place even if the round
    /// would not ring.
    fn watch(&mut self, monitor: &mut Monitor, day: u32, count: u32) -> Result<(), Cause> {
        self.alarms.check_place()?;
        monitor.stake()?;
        if monitor.settle(count)? {
            self.alarms.enter(Alarm {
                day,
                round: monitor.rounds,
                wealth: monitor.wealth,
            })?;
        }
        Ok(())
    }
}

/// What a log has given so far, and so which records may come next.
enum Stage {
    TableDue,
    SetupDue(Table),
    AlternativeDue(Table, Setup),
    Watching(Monitor),
}

/// What a sound log ends with.
struct Totals {
    rounds: u32,
    alarms: u32,
    unwatched: usize,
}

struct Replay {
    stage: Stage,
    days: Days,
}

impl Replay {
    fn new() -> Replay {
        Replay {
            stage: Stage::TableDue,
            days: Days::new(),
        }
    }

    /// Plays all records up to the end or the first fault.
    fn run(&mut self, log: &[u8]) -> Result<Totals, Fault> {
        let mut reader = Reader::new(log);
        loop {
            let record = reader.peek().map_err(|cause| reader.fault(cause))?;
            let ended = self
                .play(record, reader.record_number())
                .map_err(|cause| reader.fault(cause))?;
            reader.move_on();
            match ended {
                Some(_) if !reader.rest().is_empty() => {
                    return Err(reader.fault(Cause::BytesAfterEnd));
                }
                Some(totals) => return Ok(totals),
                None => {}
            }
        }
    }

    /// Plays one record that has been judged sound, and gives the totals at
    /// the end.
    fn play(&mut self, record: Record, number: usize) -> Result<Option<Totals>, Cause> {
        match (&mut self.stage, record) {
            (Stage::TableDue, Record::Table(null)) => {
                self.stage = Stage::SetupDue(null);
            }
            (Stage::SetupDue(null), Record::Setup(setup)) => {
                self.stage = stage_after_setup(null.clone(), setup);
            }
            (Stage::AlternativeDue(null, setup), Record::Alternative(alternative)) => {
                if alternative.classes() != null.classes() {
                    return Err(Cause::OtherClassCount);
                }
                self.stage = stage_after_alternative(null.clone(), *setup, alternative);
            }
            (Stage::Watching(monitor), Record::Count { day, count }) => {
                self.days.count(monitor, day, count, number)?;
            }
            (Stage::Watching(monitor), Record::Rearm) => {
                monitor.rearm()?;
            }
            (Stage::Watching(monitor), Record::End { counts }) => {
                if counts != self.days.counts {
                    return Err(Cause::EndNumber);
                }
                return Ok(Some(Totals {
                    rounds: monitor.rounds,
                    alarms: monitor.alarms,
                    unwatched: self.days.unwatched.entries.len(),
                }));
            }
            _ => return Err(Cause::NotAllowedHere),
        }
        Ok(None)
    }
}

/// The adaptive bettor needs no alternative, so its monitor is made here.
fn stage_after_setup(null: Table, setup: Setup) -> Stage {
    match setup.bettor {
        BettorChoice::Fixed | BettorChoice::Mixture => Stage::AlternativeDue(null, setup),
        BettorChoice::Adaptive => {
            let bettor = Bettor::adaptive();
            Stage::Watching(Monitor::new(null, bettor, setup.rule, setup.threshold))
        }
    }
}

fn stage_after_alternative(null: Table, setup: Setup, alternative: Table) -> Stage {
    let fixed = Bettor::fixed(&null, &alternative);
    let adaptive = Bettor::adaptive();
    let bettor = match setup.bettor {
        BettorChoice::Fixed => fixed,
        BettorChoice::Adaptive => adaptive,
        BettorChoice::Mixture => Bettor::Mixture(Box::new(fixed), Box::new(adaptive)),
    };
    Stage::Watching(Monitor::new(null, bettor, setup.rule, setup.threshold))
}

impl fmt::Display for Monitor {
    fn fmt(&self, out: &mut fmt::Formatter) -> fmt::Result {
        write!(
            out,
            "monitor classes {} total {} threshold {} rule {}",
            self.null.classes(),
            self.null.total,
            self.threshold,
            self.rule.letter()
        )
    }
}

impl fmt::Display for Alarm {
    fn fmt(&self, out: &mut fmt::Formatter) -> fmt::Result {
        let hundredths = self.wealth * 100 / BET;
        write!(
            out,
            "alarm round {} day {} wealth {}.{:02}",
            self.round,
            self.day,
            hundredths / 100,
            hundredths % 100
        )
    }
}

impl fmt::Display for Unwatched {
    fn fmt(&self, out: &mut fmt::Formatter) -> fmt::Result {
        write!(out, "unwatched day {} record {}", self.day, self.record)
    }
}

impl fmt::Display for Fault {
    fn fmt(&self, out: &mut fmt::Formatter) -> fmt::Result {
        write!(
            out,
            "fault {} record {} byte {} layer {}",
            self.cause.number(),
            self.record,
            self.byte,
            self.cause.layer()
        )
    }
}

impl fmt::Display for Totals {
    fn fmt(&self, out: &mut fmt::Formatter) -> fmt::Result {
        write!(
            out,
            "end rounds {} alarms {} unwatched {}",
            self.rounds, self.alarms, self.unwatched
        )
    }
}

/// The listing of a log, and its refusal number unless the log is sound.
pub fn listing_and_refusal(log: &[u8]) -> (String, Option<u8>) {
    let mut replay = Replay::new();
    let outcome = if log.len() <= LOG_LIMIT {
        replay.run(log)
    } else {
        Err(Fault {
            cause: Cause::LogTooLong,
            record: 0,
            byte: 0,
        })
    };

    let mut lines = Vec::new();
    if let Stage::Watching(monitor) = &replay.stage {
        lines.push(monitor.to_string());
    }
    lines.extend(replay.days.alarms.entries.iter().map(Alarm::to_string));
    lines.extend(
        replay
            .days
            .unwatched
            .entries
            .iter()
            .map(Unwatched::to_string),
    );
    lines.push(match &outcome {
        Ok(totals) => totals.to_string(),
        Err(fault) => fault.to_string(),
    });

    let listing = lines.iter().map(|line| format!("{line}\n")).collect();
    (listing, outcome.err().map(|fault| fault.cause.number()))
}

/// The listing of a log; every line ends with a newline.
#[allow(dead_code)]
pub fn listing(log: &[u8]) -> String {
    listing_and_refusal(log).0
}

/// The rounds of a replay, with no listing made.
#[allow(dead_code)]
pub fn rounds_of(log: &[u8]) -> u64 {
    let mut replay = Replay::new();
    let _ = replay.run(log);
    match &replay.stage {
        Stage::Watching(monitor) => u64::from(monitor.rounds),
        _ => 0,
    }
}

/// How many records are read before the end or the first fault.
#[allow(dead_code)]
pub fn records_of(log: &[u8]) -> u64 {
    let mut reader = Reader::new(log);
    while reader.peek().is_ok() {
        reader.move_on();
    }
    reader.records_read as u64
}

#[cfg(test)]
mod tests {
    use super::*;

    const EXAMPLE: &str = "04 01 02 03 01  04 02 04 01 01  04 03 02 01 01 \
         03 04 01 00  03 04 02 01  03 04 03 05  02 06 03";
    const TABLE: &str = "04 01 02 03 01";
    /// Table 3, 1; threshold 4, rule S, fixed bettor; alternative 1, 1.
    const FIXED: &str = "04 01 02 03 01  04 02 04 01 01  04 03 02 01 01";
    /// Table 3, 1; threshold 4, rule S, adaptive bettor.
    const ADAPTIVE: &str = "04 01 02 03 01  04 02 04 01 02";
    /// Table 3, 1; threshold 4, rule P, alternative 0, 1: class 1 rings at once.
    const QUICK: &str = "04 01 02 03 01  04 02 04 02 01  04 03 02 00 01";

    fn bytes(text: &str) -> Vec<u8> {
        text.split_whitespace()
            .map(|byte| u8::from_str_radix(byte, 16).expect("two digits"))
            .collect()
    }

    fn list(text: &str) -> String {
        listing(&bytes(text))
    }

    fn last_line(log: &[u8]) -> String {
        let listing = listing(log);
        listing
            .lines()
            .last()
            .expect("one line at least")
            .to_string()
    }

    fn check_last(start: &str, rest: &str, expected: &str) {
        let log = bytes(&format!("{start} {rest}"));
        assert_eq!(last_line(&log), expected, "{start} | {rest}");
    }

    fn table(weights: &[u64]) -> Table {
        Table {
            weights: weights.to_vec(),
            total: weights.iter().sum(),
        }
    }

    fn fixed(weights: &[u64]) -> Bettor {
        Bettor::fixed(&table(&[3, 1]), &table(weights))
    }

    fn two(row: Row) -> [u64; 2] {
        [row[0], row[1]]
    }

    fn play(monitor: &mut Monitor, count: u32) -> bool {
        monitor.stake().unwrap();
        monitor.settle(count).unwrap()
    }

    /// A day number of two bytes, for days from 128 to 16,383.
    fn count_record(day: u32, count: u8) -> Vec<u8> {
        assert!((128..16_384).contains(&day));
        vec![4, 4, 0x80 | (day & 0x7f) as u8, (day >> 7) as u8, count]
    }

    const REARM: [u8; 2] = [1, 5];

    #[test]
    fn example_rings_at_round_three() {
        assert_eq!(
            list(EXAMPLE),
            "monitor classes 2 total 4 threshold 4 rule S\n\
             alarm round 3 day 3 wealth 8.66\n\
             end rounds 3 alarms 1 unwatched 0\n"
        );
    }

    #[test]
    fn repeated_day_is_refused() {
        let mut log = bytes(EXAMPLE);
        log[21] = 1;
        assert_eq!(
            listing(&log),
            "monitor classes 2 total 4 threshold 4 rule S\n\
             fault 43 record 5 byte 19 layer replay\n"
        );
    }

    #[test]
    fn count_after_an_alarm_is_unwatched() {
        let days = "03 04 01 00  03 04 02 01  03 04 03 05  03 04 04 00  02 06 04";
        assert_eq!(
            list(&format!("{FIXED} {days}")),
            "monitor classes 2 total 4 threshold 4 rule S\n\
             alarm round 3 day 3 wealth 8.66\n\
             unwatched day 4 record 7\n\
             end rounds 3 alarms 1 unwatched 1\n"
        );
    }

    #[test]
    fn empty_log_has_no_record() {
        assert_eq!(listing(&[]), "fault 45 record 1 byte 0 layer record\n");
    }

    #[test]
    fn rows_are_as_reckoned() {
        let null = table(&[3, 1]);
        assert_eq!(two(fixed(&[1, 1]).row(&null)), [2730, 8192]);
        let mixture = Bettor::Mixture(Box::new(fixed(&[1, 1])), Box::new(Bettor::adaptive()));
        assert_eq!(two(mixture.row(&null)), [3413, 6144]);
        let mut adaptive = Bettor::adaptive();
        assert_eq!(two(adaptive.row(&null)), [4096, 4096]);
        adaptive.learn(1);
        assert_eq!(two(adaptive.row(&null)), [3276, 6553]);
    }

    #[test]
    fn adaptive_bettor_stops_learning_at_its_limit() {
        let mut bettor = Bettor::adaptive();
        for _ in 0..LEARNED_LIMIT + 5 {
            bettor.learn(1);
        }
        let Bettor::Adaptive { tallies, learned } = bettor else {
            panic!("the bettor stays adaptive");
        };
        assert_eq!((two(tallies), learned), ([0, 1_000_000], 1_000_000));
    }

    #[test]
    fn ledgers_are_as_reckoned() {
        let mut sum = Monitor::new(table(&[3, 1]), fixed(&[1, 1]), Rule::Sum, 4);
        for (count, wealth, rang) in [(0, 698880, false), (1, 3494912, false), (1, 9086976, true)] {
            assert_eq!(play(&mut sum, count), rang);
            assert_eq!(sum.wealth, wealth);
        }
        let mut larger = Monitor::new(table(&[3, 1]), fixed(&[1, 1]), Rule::Larger, 4);
        for (count, wealth, rang) in [(1, 2097152, false), (1, 4194304, true)] {
            assert_eq!(play(&mut larger, count), rang);
            assert_eq!(larger.wealth, wealth);
        }
    }

    #[test]
    fn weighted_alarms_are_as_reckoned() {
        let (mut alarms, mut rounds) = (0, 0);
        for (first, second) in [(0, 0), (0, 1), (1, 0), (1, 1)] {
            let mut monitor = Monitor::new(table(&[3, 1]), fixed(&[1, 1]), Rule::Sum, 2);
            for class in [first, second] {
                if play(&mut monitor, class) {
                    monitor.rearm().unwrap();
                }
            }
            let weight = [3, 1][first as usize] * [3, 1][second as usize];
            alarms += weight * monitor.alarms;
            rounds += weight * monitor.rounds;
        }
        assert_eq!((alarms, rounds), (8, 32));
    }

    #[test]
    fn rules_add_nothing_above_their_limit() {
        let limit = 1 << 32;
        assert_eq!(Rule::Sum.base(0), BET);
        assert_eq!(Rule::Sum.base(limit), limit + BET);
        assert_eq!(Rule::Sum.base(limit + 1), limit + 1);
        assert_eq!(Rule::Larger.base(0), BET);
        assert_eq!(Rule::Larger.base(BET + 1), BET + 1);
        assert_eq!(Rule::Larger.base(limit + 1), limit + 1);
    }

    #[test]
    fn monitor_refuses_calls_out_of_turn() {
        let mut monitor = Monitor::new(table(&[3, 1]), Bettor::adaptive(), Rule::Sum, 1);
        assert_eq!(monitor.settle(0), Err(Cause::SlipDoesNotFit));
        monitor.stake().unwrap();
        assert_eq!(monitor.stake(), Err(Cause::WrongState));
        assert_eq!(monitor.rearm(), Err(Cause::WrongState));
        assert_eq!(monitor.settle(0), Ok(true));
        monitor.rounds = ROUND_LIMIT;
        assert_eq!(monitor.stake(), Err(Cause::WrongState));
        monitor.rearm().unwrap();
        assert_eq!(monitor.stake(), Err(Cause::RoundsUsedUp));
    }

    #[test]
    fn book_refuses_a_full_place_before_a_wrong_day() {
        let mut book = Book::new();
        for day in 1..=64 {
            book.enter(Unwatched { day, record: 1 }).unwrap();
            let again = book.enter(Unwatched { day, record: 1 });
            let expected = if day < 64 {
                Cause::EntryDay
            } else {
                Cause::BookFull
            };
            assert_eq!(again, Err(expected));
        }
        assert_eq!(book.entries.len(), 64);
    }

    #[test]
    fn numbers_are_read_in_groups_of_seven_bits() {
        for (text, expected) in [
            ("00", Ok(0)),
            ("7F", Ok(127)),
            ("80 01", Ok(128)),
            ("AC 02", Ok(300)),
            ("FF FF FF FF 0F", Ok(u32::MAX)),
            ("80 80 80 80 01", Ok(1 << 28)),
            ("80 00", Err(Cause::LastGroupZero)),
            ("80 80 80 80 00", Err(Cause::LastGroupZero)),
            ("FF FF FF FF 10", Err(Cause::FifthByte)),
            ("80 80 80 80 80 01", Err(Cause::FifthByte)),
            ("", Err(Cause::NumberCut)),
            ("80", Err(Cause::NumberCut)),
            ("FF FF FF FF", Err(Cause::NumberCut)),
        ] {
            let body = bytes(text);
            assert_eq!(Fields { rest: &body }.number(), expected, "{text}");
        }
    }

    #[test]
    fn table_values_are_judged() {
        for (record, number, layer) in [
            ("02 01 01", 1, "value"),
            ("02 01 11", 1, "value"),
            ("03 01 02 00", 2, "value"),
            ("06 01 02 81 80 04 01", 2, "value"),
            ("06 01 02 80 80 04 00", 2, "value"),
            ("06 01 02 80 80 04 01", 3, "value"),
            ("07 01 02 80 80 04 01 00", 3, "value"),
            ("05 01 02 03 01 00", 24, "record"),
            ("03 01 02 03", 11, "number"),
            ("01 01", 11, "number"),
            ("04 01 02 03 81", 11, "number"),
            ("05 01 82 00 03 01", 12, "number"),
            ("07 01 FF FF FF FF 10 00", 13, "number"),
        ] {
            let expected = format!("fault {number} record 1 byte 0 layer {layer}");
            check_last("", record, &expected);
        }
        check_last(
            "",
            "06 01 02 FF FF 03 01",
            "fault 45 record 2 byte 7 layer record",
        );
    }

    #[test]
    fn setup_values_are_judged() {
        for (record, number, layer) in [
            ("02 02 00", 4, "value"),
            ("05 02 81 20 01 01", 4, "value"),
            ("03 02 01 03", 25, "record"),
            ("03 02 01 00", 25, "record"),
            ("04 02 01 01 00", 25, "record"),
            ("04 02 01 01 04", 25, "record"),
            ("05 02 01 01 04 00", 25, "record"),
            ("05 02 01 01 01 00", 24, "record"),
            ("03 02 01 01", 11, "number"),
        ] {
            let expected = format!("fault {number} record 2 byte 5 layer {layer}");
            check_last(TABLE, record, &expected);
        }
        check_last(
            TABLE,
            "05 02 80 20 01 02",
            "fault 45 record 3 byte 11 layer record",
        );
    }

    #[test]
    fn alternative_values_are_judged() {
        let setup = "04 01 02 03 01  04 02 04 01 03";
        for (record, number, layer) in [
            ("02 03 01", 1, "value"),
            ("06 03 02 81 80 04 00", 2, "value"),
            ("04 03 02 00 00", 3, "value"),
            ("06 03 02 80 80 04 01", 3, "value"),
            ("05 03 02 01 01 01", 24, "record"),
            ("05 03 03 01 01 01", 8, "value"),
            ("06 03 03 01 01 01 01", 24, "record"),
        ] {
            let expected = format!("fault {number} record 3 byte 10 layer {layer}");
            check_last(setup, record, &expected);
            assert!(!list(&format!("{setup} {record}")).contains("monitor"));
        }
        check_last(
            setup,
            "06 03 02 80 80 04 00",
            "fault 45 record 4 byte 17 layer record",
        );
    }

    #[test]
    fn record_fronts_are_judged_in_order() {
        for (rest, number) in [
            ("00", 21),
            ("40", 21),
            ("FF", 21),
            ("3F", 22),
            ("01", 22),
            ("02 00", 22),
            ("01 00", 23),
            ("01 07", 23),
            ("02 FF 05", 23),
            ("02 05 00", 24),
        ] {
            let expected = format!("fault {number} record 3 byte 10 layer record");
            check_last(ADAPTIVE, rest, &expected);
        }
        let mut longest = bytes("3F 05");
        longest.resize(63, 0);
        assert_eq!(last_line(&longest), "fault 22 record 1 byte 0 layer record");
        longest.push(0);
        assert_eq!(last_line(&longest), "fault 24 record 1 byte 0 layer record");
    }

    #[test]
    fn records_out_of_place_are_refused_after_their_damage() {
        check_last("", "03 04 01 00", "fault 41 record 1 byte 0 layer replay");
        check_last("", "03 04 01 80", "fault 11 record 1 byte 0 layer number");
        check_last(TABLE, TABLE, "fault 41 record 2 byte 5 layer replay");
        check_last(TABLE, "01 05", "fault 41 record 2 byte 5 layer replay");
        check_last(
            ADAPTIVE,
            "05 03 03 01 01 01",
            "fault 41 record 3 byte 10 layer replay",
        );
        check_last(
            ADAPTIVE,
            "04 03 02 00 00",
            "fault 3 record 3 byte 10 layer value",
        );
        check_last(
            FIXED,
            "04 03 02 01 01",
            "fault 41 record 4 byte 15 layer replay",
        );
        let no_alternative = "04 01 02 03 01  04 02 04 01 01  02 06 00";
        assert_eq!(
            list(no_alternative),
            "fault 41 record 3 byte 10 layer replay\n"
        );
    }

    #[test]
    fn monitor_line_stands_once_the_monitor_is_made() {
        assert_eq!(
            list(ADAPTIVE),
            "monitor classes 2 total 4 threshold 4 rule S\n\
             fault 45 record 3 byte 10 layer record\n"
        );
        assert_eq!(
            list("04 01 02 03 01  04 02 04 01 01"),
            "fault 45 record 3 byte 10 layer record\n"
        );
        assert_eq!(
            list(QUICK),
            "monitor classes 2 total 4 threshold 4 rule P\n\
             fault 45 record 4 byte 15 layer record\n"
        );
    }

    #[test]
    fn days_must_rise_also_after_unwatched_days_and_rearms() {
        check_last(
            ADAPTIVE,
            "03 04 00 00  02 06 01",
            "end rounds 1 alarms 0 unwatched 0",
        );
        check_last(
            ADAPTIVE,
            "03 04 00 00  03 04 00 00",
            "fault 43 record 4 byte 14 layer replay",
        );
        check_last(
            QUICK,
            "03 04 05 01  03 04 06 01  01 05  03 04 06 01",
            "fault 43 record 7 byte 25 layer replay",
        );
    }

    #[test]
    fn end_is_judged_in_order() {
        check_last(ADAPTIVE, "02 06 00", "end rounds 0 alarms 0 unwatched 0");
        check_last(
            ADAPTIVE,
            "02 06 01",
            "fault 44 record 3 byte 10 layer replay",
        );
        check_last(
            ADAPTIVE,
            "02 06 01 00",
            "fault 44 record 3 byte 10 layer replay",
        );
        check_last(
            ADAPTIVE,
            "02 06 00 00",
            "fault 46 record 4 byte 13 layer replay",
        );
        check_last(
            ADAPTIVE,
            "02 06 00 02 06 00",
            "fault 46 record 4 byte 13 layer replay",
        );
        check_last(
            ADAPTIVE,
            "03 06 00 00",
            "fault 24 record 3 byte 10 layer record",
        );
        check_last(
            QUICK,
            "03 04 05 01  03 04 06 01  02 06 01",
            "fault 44 record 6 byte 23 layer replay",
        );
    }

    #[test]
    fn rearm_keeps_rounds_alarms_and_tallies() {
        let adaptive_with_one = "04 01 02 03 01  04 02 01 02 02";
        let days = "03 04 01 01  01 05  03 04 02 01  01 05  03 04 03 00  02 06 03";
        assert_eq!(
            list(&format!("{adaptive_with_one} {days}")),
            "monitor classes 2 total 4 threshold 1 rule P\n\
             alarm round 1 day 1 wealth 1.00\n\
             alarm round 2 day 2 wealth 1.59\n\
             end rounds 3 alarms 2 unwatched 0\n"
        );
    }

    #[test]
    fn greatest_factor_gives_the_greatest_wealth() {
        let log = "06 01 02 01 FF FF 03  05 02 80 20 01 01  04 03 02 01 00 \
             07 04 FF FF FF FF 0F 00  02 06 01";
        assert_eq!(
            list(log),
            "monitor classes 2 total 65536 threshold 4096 rule S\n\
             alarm round 1 day 4294967295 wealth 65536.00\n\
             end rounds 1 alarms 1 unwatched 0\n"
        );
    }

    #[test]
    fn full_alarm_book_refuses_every_armed_count() {
        let mut log = bytes(QUICK);
        for day in 0..64 {
            log.extend(count_record(200 + day, 1));
            log.extend(REARM);
        }
        let byte = log.len();
        let mut sound = log.clone();
        sound.extend(bytes("02 06 40"));
        assert_eq!(last_line(&sound), "end rounds 64 alarms 64 unwatched 0");

        let mut stale = log.clone();
        stale.extend(count_record(263, 0));
        let expected = format!("fault 43 record 132 byte {byte} layer replay");
        assert_eq!(last_line(&stale), expected);

        log.extend(count_record(264, 0));
        let expected = format!("fault 37 record 132 byte {byte} layer book");
        assert_eq!(last_line(&log), expected);
        assert_eq!(listing(&log).lines().count(), 66);
    }

    #[test]
    fn full_alarm_book_lets_unwatched_days_pass() {
        let mut log = bytes(QUICK);
        for day in 0..63 {
            log.extend(count_record(200 + day, 1));
            log.extend(REARM);
        }
        log.extend(count_record(300, 1));
        log.extend(count_record(301, 1));
        log.extend(bytes("02 06 41"));
        assert_eq!(last_line(&log), "end rounds 64 alarms 64 unwatched 1");
    }

    #[test]
    fn full_book_of_unwatched_days_refuses_every_rung_count() {
        let mut log = bytes(QUICK);
        log.extend(count_record(200, 1));
        for day in 1..=64 {
            log.extend(count_record(200 + day, 1));
        }
        let mut sound = log.clone();
        sound.extend(bytes("02 06 41"));
        assert_eq!(last_line(&sound), "end rounds 1 alarms 1 unwatched 64");

        let mut rearmed = log.clone();
        rearmed.extend(REARM);
        rearmed.extend(count_record(265, 0));
        rearmed.extend(bytes("02 06 42"));
        assert_eq!(last_line(&rearmed), "end rounds 2 alarms 1 unwatched 64");

        let expected = format!("fault 37 record 69 byte {} layer book", log.len());
        log.extend(count_record(265, 0));
        assert_eq!(last_line(&log), expected);
    }

    #[test]
    fn log_length_is_judged_first_and_alone() {
        let mut log = bytes(ADAPTIVE);
        log.extend(bytes("02 06 00"));
        log.resize(LOG_LIMIT, 0);
        assert_eq!(last_line(&log), "fault 46 record 4 byte 13 layer replay");
        log.push(0);
        assert_eq!(listing(&log), "fault 48 record 0 byte 0 layer replay\n");
    }

    #[test]
    fn numbers_and_layers_agree_with_the_reachable_list() {
        for number in REACHABLE {
            assert!(![6, 26, 27, 28, 31, 32, 34, 38].contains(&number));
        }
        assert!(REACHABLE.windows(2).all(|pair| pair[0] < pair[1]));
    }
}
