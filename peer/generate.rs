//! `generate SEED COUNT`: prints COUNT logs, one a line in hexadecimal. The
//! same seed always gives the same logs.
//!
//! Some logs are sound and some are damaged; the damages together reach every
//! refusal that a listing can show.

#[cfg(test)]
mod engine;
mod hex;

use std::io::{self, BufWriter, Write};
use std::process::ExitCode;

const LOG_LIMIT: usize = 65_536;
const WEIGHT_LIMIT: u32 = 65_536;
const BOOK_PLACES: usize = 64;

/// The splitmix64 generator.
struct Random(u64);

impl Random {
    /// Each log has a start of its own, so that it does not depend on the
    /// logs before it.
    fn for_log(seed: u64, index: u64) -> Random {
        let mut mixer = Random(seed);
        let start = mixer.next();
        let mut random = Random(start ^ index.wrapping_mul(0xd1b5_4a32_d192_ed03));
        random.next();
        random
    }

    fn next(&mut self) -> u64 {
        self.0 = self.0.wrapping_add(0x9e37_79b9_7f4a_7c15);
        let mut mixed = self.0;
        mixed = (mixed ^ (mixed >> 30)).wrapping_mul(0xbf58_476d_1ce4_e5b9);
        mixed = (mixed ^ (mixed >> 27)).wrapping_mul(0x94d0_49bb_1331_11eb);
        mixed ^ (mixed >> 31)
    }

    /// A number from 0 to `bound - 1`.
    fn below(&mut self, bound: usize) -> usize {
        (self.next() % bound as u64) as usize
    }

    /// A number from `low` to `high`, both included.
    fn between(&mut self, low: u32, high: u32) -> u32 {
        low + (self.next() % (u64::from(high - low) + 1)) as u32
    }

    fn percent(&mut self, chance: usize) -> bool {
        self.below(100) < chance
    }

    fn pick<T: Copy>(&mut self, choices: &[T]) -> T {
        choices[self.below(choices.len())]
    }

    fn byte(&mut self) -> u8 {
        self.next() as u8
    }

    /// A number of any size, small ones and the greatest ones often.
    fn any_number(&mut self) -> u32 {
        match self.below(4) {
            0 => self.between(0, 20),
            1 => self.pick(&[127, 128, 16_383, 16_384, 65_536, 65_537, u32::MAX]),
            _ => (self.next() as u32) >> self.below(32),
        }
    }
}

/// The shortest way to write a number.
fn number(mut value: u32) -> Vec<u8> {
    let mut groups = Vec::new();
    while value > 0x7f {
        groups.push(0x80 | (value & 0x7f) as u8);
        value >>= 7;
    }
    groups.push(value as u8);
    groups
}

/// A record before it is written. Its fields are kept as bytes, so that they
/// can also be written wrongly.
#[derive(Clone)]
struct Draft {
    kind: u8,
    fields: Vec<Vec<u8>>,
    /// Stands for the true length if it is given.
    length: Option<u8>,
}

impl Draft {
    fn new(kind: u8, values: &[u32]) -> Draft {
        Draft {
            kind,
            fields: values.iter().map(|&value| number(value)).collect(),
            length: None,
        }
    }

    fn table(kind: u8, weights: &[u32]) -> Draft {
        let mut values = vec![weights.len() as u32];
        values.extend(weights);
        Draft::new(kind, &values)
    }

    fn count(day: u32, count: u32) -> Draft {
        Draft::new(4, &[day, count])
    }

    fn rearm() -> Draft {
        Draft::new(5, &[])
    }

    fn end(counts: usize) -> Draft {
        Draft::new(6, &[counts as u32])
    }

    fn body(&self) -> Vec<u8> {
        let mut body = vec![self.kind];
        body.extend(self.fields.iter().flatten());
        body
    }

    fn write(&self, log: &mut Vec<u8>) {
        let body = self.body();
        let length = self.length.unwrap_or(body.len().min(255) as u8);
        log.push(length);
        log.extend(body);
    }
}

fn write_all(drafts: &[Draft]) -> Vec<u8> {
    let mut log = Vec::new();
    for draft in drafts {
        draft.write(&mut log);
    }
    log
}

/// The weights of a table that keeps its limits.
fn weights(random: &mut Random, classes: usize, least: u32) -> Vec<u32> {
    let share = WEIGHT_LIMIT / classes as u32;
    let mut weights = vec![least; classes];
    match random.below(6) {
        0 => weights.fill(random.pick(&[1, 2, share])),
        1 => {
            let heavy = random.below(classes);
            weights[heavy] = WEIGHT_LIMIT - least * (classes as u32 - 1);
        }
        2 => weights.fill_with(|| random.between(least, 300)),
        3 => weights.fill_with(|| random.between(least, share)),
        _ => weights.fill_with(|| random.between(least, 9)),
    }
    if weights.iter().all(|&weight| weight == 0) {
        let lone = random.below(classes);
        weights[lone] = random.between(1, 5);
    }
    weights
}

fn total(weights: &[u32]) -> u32 {
    weights.iter().sum()
}

fn sample(random: &mut Random, weights: &[u32]) -> u32 {
    let mut left = random.between(0, total(weights) - 1);
    for (class, &weight) in weights.iter().enumerate() {
        if left < weight {
            return class as u32;
        }
        left -= weight;
    }
    0
}

/// What a log says before its counts.
struct Head {
    null: Vec<u32>,
    threshold: u32,
    rule: u32,
    bettor: u32,
    alternative: Vec<u32>,
}

impl Head {
    fn any(random: &mut Random) -> Head {
        let classes = random.pick(&[2, 2, 3, 4, 5, 8, 12, 15, 16]);
        let threshold = match random.below(8) {
            0 | 1 => 1,
            2..=4 => random.between(2, 8),
            5 => random.between(2, 128),
            6 => random.between(2, 4096),
            _ => random.pick(&[127, 128, 4095, 4096]),
        };
        Head {
            null: weights(random, classes, 1),
            threshold,
            rule: random.between(1, 2),
            bettor: random.between(1, 3),
            alternative: weights(random, classes, 0),
        }
    }

    /// A head with a class that rings in every armed round, if no other class
    /// is ever counted.
    fn ringing(random: &mut Random) -> (Head, u32) {
        let mut head = Head::any(random);
        let class = random.below(head.null.len());
        if random.percent(50) {
            head.alternative.fill(0);
            head.alternative[class] = random.between(1, 1000);
        } else {
            head.alternative = head.null.clone();
            let most = WEIGHT_LIMIT - total(&head.null);
            head.alternative[class] += random.between(0, most.min(500));
        }
        let others = total(&head.alternative) - head.alternative[class];
        head.threshold = 1;
        if head.bettor == 1 && others == 0 {
            let most = total(&head.null) / head.null[class];
            head.threshold = random.between(1, most.min(4096));
        }
        (head, class as u32)
    }

    /// A head whose factors stay near even while counts follow the null table.
    fn near_even(random: &mut Random) -> Head {
        let mut head = Head::any(random);
        for (class, weight) in head.null.iter().enumerate() {
            let part = random.between(60, 100);
            head.alternative[class] = (weight * part).div_ceil(100);
        }
        head.threshold = if head.rule == 1 {
            random.between(18, 30)
        } else {
            random.between(2, 5)
        };
        head
    }

    fn drafts(&self) -> Vec<Draft> {
        let setup = [self.threshold, self.rule, self.bettor];
        let mut drafts = vec![Draft::table(1, &self.null), Draft::new(2, &setup)];
        if self.bettor != 2 {
            drafts.push(Draft::table(3, &self.alternative));
        }
        drafts
    }
}

/// Where the counts of a log come from.
#[derive(Clone, Copy)]
enum Source {
    Null,
    Alternative,
    Uniform,
    OneClass(u32),
    Any,
}

impl Source {
    fn any(random: &mut Random, head: &Head) -> Source {
        match random.below(6) {
            0 => Source::Null,
            1 | 2 => Source::Alternative,
            3 => Source::Uniform,
            4 => Source::OneClass(random.below(head.null.len()) as u32),
            _ => Source::Any,
        }
    }

    fn count(self, random: &mut Random, head: &Head) -> u32 {
        match self {
            Source::Null => sample(random, &head.null),
            Source::Alternative => sample(random, &head.alternative),
            Source::Uniform => random.between(0, head.null.len() as u32 + 1),
            Source::OneClass(class) => class,
            Source::Any => random.any_number(),
        }
    }
}

/// Gives rising days that never pass the greatest number.
struct Calendar {
    next: u32,
    widest_gap: u32,
}

impl Calendar {
    fn any(random: &mut Random, days: usize) -> Calendar {
        let days = days as u32;
        let widest_gap = random.pick(&[1, 1, 1, 3, 40]);
        let start = match random.below(8) {
            0..=2 => 0,
            3..=5 => 1,
            6 => random.between(100, 20_000),
            _ => u32::MAX - days * widest_gap,
        };
        Calendar {
            next: start,
            widest_gap,
        }
    }

    fn day(&mut self, random: &mut Random) -> u32 {
        let day = self.next;
        self.next += random.between(1, self.widest_gap);
        day
    }
}

/// The records of a log as they are put together.
struct Builder {
    drafts: Vec<Draft>,
    calendar: Calendar,
    counts: usize,
}

impl Builder {
    fn new(random: &mut Random, head: &Head, most_counts: usize) -> Builder {
        Builder {
            drafts: head.drafts(),
            calendar: Calendar::any(random, most_counts),
            counts: 0,
        }
    }

    fn count(&mut self, random: &mut Random, count: u32) {
        let day = self.calendar.day(random);
        self.drafts.push(Draft::count(day, count));
        self.counts += 1;
    }

    /// Adds a count whose day is not above the last count's.
    fn stale_count(&mut self, random: &mut Random, count: u32) {
        let day = self.calendar.day(random);
        let stale = day.saturating_sub(self.calendar.widest_gap);
        self.drafts.push(Draft::count(stale, count));
        self.counts += 1;
    }

    fn rearm(&mut self) {
        self.drafts.push(Draft::rearm());
    }

    fn end(mut self) -> Vec<Draft> {
        self.drafts.push(Draft::end(self.counts));
        self.drafts
    }
}

/// A log with the given number of counts. It is sound, unless it has more
/// than 64 counts and they fill a book.
fn counts_log(random: &mut Random, counts: usize) -> Vec<Draft> {
    let head = Head::any(random);
    let source = Source::any(random, &head);
    let rearm_chance = random.pick(&[0, 5, 20, 40]);
    let mut builder = Builder::new(random, &head, counts);
    for _ in 0..counts {
        let count = source.count(random, &head);
        builder.count(random, count);
        if random.percent(rearm_chance) {
            builder.rearm();
        }
    }
    builder.end()
}

fn sound_log(random: &mut Random) -> Vec<Draft> {
    let most = random.pick(&[0, 4, 12, 30, 30, 60]);
    let counts = random.between(most / 2, most) as usize;
    counts_log(random, counts)
}

fn short_log(random: &mut Random) -> Vec<Draft> {
    let counts = random.pick(&[0, 1, 1, 2, 3, 6, 12]);
    counts_log(random, counts)
}

/// A log that fills one of the books, or both, and then goes on in one of
/// several ways. Every armed count in it rings.
fn book_log(random: &mut Random) -> Vec<Draft> {
    let (head, class) = Head::ringing(random);
    let (alarms, unwatched) = match random.below(5) {
        0 | 1 => (BOOK_PLACES, random.below(4)),
        2 | 3 => (1 + random.below(4), BOOK_PLACES),
        _ => (BOOK_PLACES, BOOK_PLACES),
    };
    let mut builder = Builder::new(random, &head, alarms + unwatched + 2);
    let mut unwatched_left = unwatched;
    for alarm in 1..=alarms {
        builder.count(random, class);
        let unwatched_now = if alarm == alarms {
            unwatched_left
        } else {
            random.below(3).min(unwatched_left)
        };
        for _ in 0..unwatched_now {
            builder.count(random, class);
        }
        unwatched_left -= unwatched_now;
        if alarm < alarms {
            builder.rearm();
        }
    }
    for _ in 0..random.below(3) {
        if random.percent(60) {
            builder.rearm();
        }
        let count = if random.percent(50) {
            class
        } else {
            random.between(0, 16)
        };
        if random.percent(15) {
            builder.stale_count(random, count);
        } else {
            builder.count(random, count);
        }
    }
    builder.end()
}

/// A log of exactly the given length, at least 1,000 bytes. Its counts follow
/// the null table and rearms are frequent, so that alarms are few and most
/// such logs are sound. The last part has no rearm, so that rule S often rings
/// there.
fn long_log(random: &mut Random, length: usize) -> Vec<u8> {
    let head = Head::near_even(random);
    let mut log = write_all(&head.drafts());
    let mut day = random.between(0, 500);
    let mut counts = 0;
    loop {
        let mut end = Vec::new();
        Draft::end(counts + 1).write(&mut end);
        let room = length - log.len() - end.len();
        if room < 40 {
            fill_up(&mut log, room, day);
            log.extend(end);
            return log;
        }
        if room > 250 && random.percent(25) {
            Draft::rearm().write(&mut log);
        } else {
            let count = sample(random, &head.null);
            Draft::count(day, count).write(&mut log);
            day += random.between(1, 2);
            counts += 1;
        }
    }
}

/// Fills the room with one count, whose size makes the rest even, and with
/// rearms of two bytes each.
fn fill_up(log: &mut Vec<u8>, room: usize, day: u32) {
    let full = log.len() + room;
    let one_byte_count = Draft::count(day, 0);
    let two_byte_count = Draft::count(day, 200);
    if (1 + one_byte_count.body().len()) % 2 == room % 2 {
        one_byte_count.write(log);
    } else {
        two_byte_count.write(log);
    }
    while log.len() < full {
        Draft::rearm().write(log);
    }
}

fn too_long_log(random: &mut Random) -> Vec<u8> {
    match random.below(3) {
        0 => long_log(random, LOG_LIMIT + 1),
        1 => vec![random.pick(&[0, 1, 5, 0xff]); LOG_LIMIT + 1],
        _ => {
            let mut log = write_all(&sound_log(random));
            let extra = random.below(3_000);
            log.resize_with(LOG_LIMIT + 1 + extra, || random.byte());
            log
        }
    }
}

/// The place of a record with the kind, if there is one.
fn find(random: &mut Random, drafts: &[Draft], kinds: &[u8]) -> Option<usize> {
    let places: Vec<usize> = (0..drafts.len())
        .filter(|&place| kinds.contains(&drafts[place].kind))
        .collect();
    if places.is_empty() {
        None
    } else {
        Some(random.pick(&places))
    }
}

/// The place of any record; the first three come up more often.
fn any_place(random: &mut Random, drafts: &[Draft]) -> usize {
    if random.percent(50) {
        random.below(drafts.len().min(3))
    } else {
        random.below(drafts.len())
    }
}

fn any_with_fields(random: &mut Random, drafts: &[Draft]) -> usize {
    let place = any_place(random, drafts);
    if drafts[place].fields.is_empty() {
        0
    } else {
        place
    }
}

/// The field of a weight in a table or an alternative.
fn any_weight(random: &mut Random, draft: &Draft) -> usize {
    let weights = draft.fields.len().saturating_sub(1);
    1 + random.below(weights.max(1))
}

/// Puts a value into a field if the record has it.
fn set_field(draft: &mut Draft, field: usize, value: u32) {
    if let Some(bytes) = draft.fields.get_mut(field) {
        *bytes = number(value);
    }
}

/// One way to damage a log.
#[derive(Clone, Copy)]
enum Damage {
    ClassCount,
    Weight,
    Total,
    Threshold,
    OtherClasses,
    OverlongNumber,
    PaddedNumber,
    CutNumber,
    MissingField,
    ExtraBytes,
    Length,
    BodyCut,
    Kind,
    RuleOrBettor,
    Order,
    WrongAlternative,
    DayOrder,
    EndNumber,
    NoEnd,
    BytesAfterEnd,
    AnyValue,
}

const DAMAGES: [Damage; 21] = [
    Damage::ClassCount,
    Damage::Weight,
    Damage::Total,
    Damage::Threshold,
    Damage::OtherClasses,
    Damage::OverlongNumber,
    Damage::PaddedNumber,
    Damage::CutNumber,
    Damage::MissingField,
    Damage::ExtraBytes,
    Damage::Length,
    Damage::BodyCut,
    Damage::Kind,
    Damage::RuleOrBettor,
    Damage::Order,
    Damage::WrongAlternative,
    Damage::DayOrder,
    Damage::EndNumber,
    Damage::NoEnd,
    Damage::BytesAfterEnd,
    Damage::AnyValue,
];

fn damage(random: &mut Random, drafts: &mut Vec<Draft>, damage: Damage) {
    if drafts.is_empty() {
        return;
    }
    match damage {
        Damage::ClassCount => damage_class_count(random, drafts),
        Damage::Weight => damage_weight(random, drafts),
        Damage::Total => damage_total(random, drafts),
        Damage::Threshold => damage_threshold(random, drafts),
        Damage::OtherClasses => damage_other_classes(random, drafts),
        Damage::OverlongNumber => damage_overlong_number(random, drafts),
        Damage::PaddedNumber => damage_padded_number(random, drafts),
        Damage::CutNumber => damage_cut_number(random, drafts),
        Damage::MissingField => damage_missing_field(random, drafts),
        Damage::ExtraBytes => damage_extra_bytes(random, drafts),
        Damage::Length => damage_length(random, drafts),
        Damage::BodyCut => damage_body_cut(random, drafts),
        Damage::Kind => damage_kind(random, drafts),
        Damage::RuleOrBettor => damage_rule_or_bettor(random, drafts),
        Damage::Order => damage_order(random, drafts),
        Damage::WrongAlternative => damage_alternative(random, drafts),
        Damage::DayOrder => damage_day_order(random, drafts),
        Damage::EndNumber => damage_end_number(random, drafts),
        Damage::NoEnd => damage_no_end(random, drafts),
        Damage::BytesAfterEnd => damage_bytes_after_end(random, drafts),
        Damage::AnyValue => damage_any_value(random, drafts),
    }
}

fn damage_class_count(random: &mut Random, drafts: &mut [Draft]) {
    if let Some(place) = find(random, drafts, &[1, 3]) {
        let large = random.any_number();
        let value = random.pick(&[0, 1, 17, 18, large]);
        set_field(&mut drafts[place], 0, value);
    }
}

fn damage_weight(random: &mut Random, drafts: &mut [Draft]) {
    if let Some(place) = find(random, drafts, &[1, 3]) {
        let field = any_weight(random, &drafts[place]);
        let value = random.pick(&[0, 0, 65_537, 65_538, 1 << 20, u32::MAX]);
        set_field(&mut drafts[place], field, value);
    }
}

fn damage_total(random: &mut Random, drafts: &mut [Draft]) {
    if let Some(place) = find(random, drafts, &[1, 3]) {
        let draft = &mut drafts[place];
        let fields = draft.fields.len();
        if draft.kind == 3 && random.percent(50) {
            for field in 1..fields {
                set_field(draft, field, 0);
            }
        } else {
            for _ in 0..1 + random.below(2) {
                let field = any_weight(random, draft);
                set_field(draft, field, random.pick(&[65_536, 65_535, 65_530]));
            }
        }
        if random.percent(15) {
            draft.fields.push(number(1));
        }
    }
}

fn damage_threshold(random: &mut Random, drafts: &mut [Draft]) {
    if let Some(place) = find(random, drafts, &[2]) {
        set_field(
            &mut drafts[place],
            0,
            random.pick(&[0, 0, 4097, 4098, 1 << 31]),
        );
    }
}

/// Puts in an alternative that is sound by itself but has another number of
/// classes. A log with the adaptive bettor gets a bettor that needs one.
fn damage_other_classes(random: &mut Random, drafts: &mut Vec<Draft>) {
    let Some(setup) = find(random, drafts, &[2]) else {
        return;
    };
    let classes = random.between(2, 16) as usize;
    let other = Draft::table(3, &weights(random, classes, 0));
    match find(random, drafts, &[3]) {
        Some(place) => drafts[place] = other,
        None => {
            if random.percent(80) {
                set_field(&mut drafts[setup], 2, random.pick(&[1, 3]));
            }
            drafts.insert(setup + 1, other);
        }
    }
}

fn damage_overlong_number(random: &mut Random, drafts: &mut [Draft]) {
    let place = any_with_fields(random, drafts);
    let fields = drafts[place].fields.len();
    if fields > 0 {
        let field = random.below(fields);
        let mut bytes: Vec<u8> = (0..4).map(|_| 0x80 | random.byte()).collect();
        let any = random.byte().max(0x10);
        bytes.push(random.pick(&[0x0f, 0x10, 0x10, 0x1f, 0x80, 0x8f, any]));
        if random.percent(20) {
            bytes.push(random.pick(&[0x00, 0x01]));
        }
        drafts[place].fields[field] = bytes;
    }
}

fn damage_padded_number(random: &mut Random, drafts: &mut [Draft]) {
    let place = any_with_fields(random, drafts);
    let fields = drafts[place].fields.len();
    if fields > 0 {
        let field = random.below(fields);
        let bytes = &mut drafts[place].fields[field];
        let groups = bytes.len() + 1 + random.below(4);
        for byte in bytes.iter_mut() {
            *byte |= 0x80;
        }
        bytes.resize(groups.min(5) - 1, 0x80);
        bytes.push(0);
    }
}

/// Lets the last byte of a body say that another follows.
fn damage_cut_number(random: &mut Random, drafts: &mut [Draft]) {
    let place = any_with_fields(random, drafts);
    if let Some(byte) = drafts[place]
        .fields
        .last_mut()
        .and_then(|field| field.last_mut())
    {
        *byte |= 0x80;
    }
}

fn damage_missing_field(random: &mut Random, drafts: &mut [Draft]) {
    let place = any_with_fields(random, drafts);
    let draft = &mut drafts[place];
    for _ in 0..1 + random.below(2) {
        draft.fields.pop();
    }
}

fn damage_extra_bytes(random: &mut Random, drafts: &mut [Draft]) {
    let place = any_place(random, drafts);
    let draft = &mut drafts[place];
    let extra = if random.percent(15) {
        63usize.saturating_sub(draft.body().len())
    } else {
        1 + random.below(3)
    };
    draft
        .fields
        .push((0..extra).map(|_| random.byte()).collect());
}

fn damage_length(random: &mut Random, drafts: &mut [Draft]) {
    let place = any_place(random, drafts);
    let true_length = drafts[place].body().len() as u8;
    let any = random.byte();
    drafts[place].length = Some(random.pick(&[
        0,
        0,
        64,
        64,
        65,
        255,
        any | 0x40,
        true_length.wrapping_add(1),
        true_length.wrapping_sub(1),
    ]));
}

/// Makes a record the last one and its length too great.
fn damage_body_cut(random: &mut Random, drafts: &mut Vec<Draft>) {
    let place = any_place(random, drafts);
    drafts.truncate(place + 1);
    let true_length = drafts[place].body().len() as u8;
    let longer = random.pick(&[true_length.saturating_add(1), 63, 63, 64]);
    drafts[place].length = Some(longer);
}

fn damage_kind(random: &mut Random, drafts: &mut [Draft]) {
    let place = any_place(random, drafts);
    let any = random.byte();
    drafts[place].kind = random.pick(&[0, 7, 7, 8, 0x80, 0x81, 0xff, any]);
}

fn damage_rule_or_bettor(random: &mut Random, drafts: &mut [Draft]) {
    if let Some(place) = find(random, drafts, &[2]) {
        let large = random.any_number();
        let (field, value) = if random.percent(50) {
            (1, random.pick(&[0, 3, 4, large]))
        } else {
            (2, random.pick(&[0, 4, 5, large]))
        };
        set_field(&mut drafts[place], field, value);
    }
}

fn damage_order(random: &mut Random, drafts: &mut Vec<Draft>) {
    let place = any_place(random, drafts);
    match random.below(4) {
        0 => {
            drafts.remove(place);
        }
        1 => drafts.insert(place, drafts[place].clone()),
        2 => {
            let other = any_place(random, drafts);
            drafts.swap(place, other);
        }
        _ => {
            let day = random.any_number();
            let inserted = match random.below(4) {
                0 => Draft::rearm(),
                1 => Draft::count(day, 0),
                2 => Draft::new(2, &[1, 1, 1]),
                _ => Draft::end(0),
            };
            drafts.insert(place, inserted);
        }
    }
}

/// Changes the bettor, so that an alternative is missing or not allowed.
fn damage_alternative(random: &mut Random, drafts: &mut [Draft]) {
    let has_alternative = find(random, drafts, &[3]).is_some();
    if let Some(place) = find(random, drafts, &[2]) {
        let bettor = if has_alternative {
            2
        } else {
            random.pick(&[1, 3])
        };
        set_field(&mut drafts[place], 2, bettor);
    }
}

/// Gives a count a day that may be too low, or adds such a count.
fn damage_day_order(random: &mut Random, drafts: &mut Vec<Draft>) {
    if let Some(place) = find(random, drafts, &[4]) {
        let mut copy = drafts[place].clone();
        if random.percent(30) {
            set_field(&mut copy, 0, random.pick(&[0, 0, 1, u32::MAX]));
        }
        let rest = drafts.len() - place;
        let target = place + 1 + random.below(rest.min(4));
        drafts.insert(target, copy);
    }
}

fn damage_end_number(random: &mut Random, drafts: &mut [Draft]) {
    let counts = drafts.iter().filter(|draft| draft.kind == 4).count() as u32;
    if let Some(place) = find(random, drafts, &[6]) {
        let large = random.any_number();
        let value = random.pick(&[0, counts + 1, counts + 1, counts.saturating_sub(1), large]);
        set_field(&mut drafts[place], 0, value);
    }
}

fn damage_no_end(random: &mut Random, drafts: &mut Vec<Draft>) {
    if random.percent(50) {
        drafts.pop();
    } else {
        drafts.truncate(random.below(drafts.len() + 1));
    }
}

fn damage_bytes_after_end(random: &mut Random, drafts: &mut Vec<Draft>) {
    let mut following = match random.below(4) {
        0 => Draft::end(0),
        1 => Draft::rearm(),
        2 => drafts[0].clone(),
        _ => Draft::new(random.byte(), &[]),
    };
    if random.percent(30) {
        following.length = Some(random.byte());
    }
    drafts.push(following);
}

/// Puts any number into any field.
fn damage_any_value(random: &mut Random, drafts: &mut [Draft]) {
    let place = any_with_fields(random, drafts);
    let fields = drafts[place].fields.len();
    if fields > 0 {
        let field = random.below(fields);
        set_field(&mut drafts[place], field, random.any_number());
    }
}

fn damaged_log(random: &mut Random) -> Vec<u8> {
    let mut drafts = short_log(random);
    let times = random.pick(&[1, 1, 1, 2, 3]);
    for _ in 0..times {
        let kind = random.pick(&DAMAGES);
        damage(random, &mut drafts, kind);
    }
    write_all(&drafts)
}

/// Damages the bytes of a log without regard to its records.
fn damage_bytes(random: &mut Random, log: &mut Vec<u8>) {
    if log.is_empty() {
        return;
    }
    let place = random.below(log.len());
    match random.below(6) {
        0 | 1 => log[place] ^= 1 << random.below(8),
        2 => log.truncate(place),
        3 => log.insert(place, random.byte()),
        4 => {
            log.remove(place);
        }
        _ => log[place] = random.byte(),
    }
}

fn byte_damaged_log(random: &mut Random) -> Vec<u8> {
    let mut log = write_all(&short_log(random));
    for _ in 0..random.pick(&[1, 1, 2]) {
        damage_bytes(random, &mut log);
    }
    log
}

/// Random bytes, or random records after a part of a sound head.
fn random_log(random: &mut Random) -> Vec<u8> {
    if random.percent(30) {
        let length = random.below(40);
        return (0..length).map(|_| random.byte()).collect();
    }
    let head = Head::any(random);
    let known = random.below(4);
    let mut drafts: Vec<Draft> = head.drafts().into_iter().take(known).collect();
    for _ in 0..random.below(6) {
        let kind = random.between(1, 6) as u8;
        let values: Vec<u32> = (0..random.below(4)).map(|_| random.between(0, 4)).collect();
        drafts.push(Draft::new(kind, &values));
    }
    write_all(&drafts)
}

/// A log by its index: some indices are kept for the long logs and for the
/// full books, so that every run of 400 logs has all of them.
fn log(seed: u64, index: u64) -> Vec<u8> {
    let mut random = Random::for_log(seed, index);
    let random = &mut random;
    match index % 400 {
        49 | 149 | 249 | 349 => return too_long_log(random),
        99 => return long_log(random, LOG_LIMIT),
        199 => {
            let length = random.between(60_000, LOG_LIMIT as u32) as usize;
            return long_log(random, length);
        }
        299 => {
            let length = random.between(2_000, 20_000) as usize;
            return long_log(random, length);
        }
        399 => return Vec::new(),
        _ => {}
    }
    match index % 40 {
        7 | 27 => return write_all(&book_log(random)),
        17 => {
            let counts = random.between(100, 300) as usize;
            return write_all(&counts_log(random, counts));
        }
        _ => {}
    }
    match random.below(100) {
        0..=27 => write_all(&sound_log(random)),
        28..=87 => damaged_log(random),
        88..=95 => byte_damaged_log(random),
        _ => random_log(random),
    }
}

fn arguments() -> Option<(u64, u64)> {
    let mut arguments = std::env::args().skip(1);
    let seed = arguments.next()?.parse().ok()?;
    let count = arguments.next()?.parse().ok()?;
    match arguments.next() {
        Some(_) => None,
        None => Some((seed, count)),
    }
}

fn print_logs(seed: u64, count: u64) -> io::Result<()> {
    let mut out = BufWriter::new(io::stdout().lock());
    for index in 0..count {
        writeln!(out, "{}", hex::encode(&log(seed, index)))?;
    }
    out.flush()
}

fn main() -> ExitCode {
    let Some((seed, count)) = arguments() else {
        eprintln!("usage: generate SEED COUNT");
        return ExitCode::from(2);
    };
    match print_logs(seed, count) {
        Ok(()) => ExitCode::SUCCESS,
        Err(error) => {
            eprintln!("generate: {error}");
            ExitCode::from(2)
        }
    }
}

#[cfg(test)]
mod tests {
    use super::*;
    use std::collections::BTreeSet;

    #[test]
    fn every_run_of_two_thousand_logs_reaches_every_refusal() {
        for seed in 0..5 {
            let seen: BTreeSet<u8> = (0..2_000)
                .filter_map(|index| engine::listing_and_refusal(&log(seed, index)).1)
                .collect();
            let reachable: BTreeSet<u8> = engine::REACHABLE.into_iter().collect();
            assert_eq!(seen, reachable, "seed {seed}");
        }
    }

    #[test]
    fn short_logs_are_sound() {
        for index in 0..500 {
            let mut random = Random::for_log(1, index);
            let log = write_all(&sound_log(&mut random));
            assert_eq!(engine::listing_and_refusal(&log).1, None);
        }
    }

    #[test]
    fn long_logs_have_their_length() {
        for index in 0..200 {
            let mut random = Random::for_log(2, index);
            let length = 1_000 + index as usize;
            assert_eq!(long_log(&mut random, length).len(), length);
        }
        let longest = long_log(&mut Random::for_log(3, 0), LOG_LIMIT);
        assert_eq!(longest.len(), engine::LOG_LIMIT);
    }

    #[test]
    fn books_are_filled() {
        for index in 0..500 {
            let mut random = Random::for_log(4, index);
            let log = write_all(&book_log(&mut random));
            let listing = engine::listing(&log);
            let entries = |word| {
                listing
                    .lines()
                    .filter(|line| line.starts_with(word))
                    .count()
            };
            assert!(entries("alarm") == BOOK_PLACES || entries("unwatched") == BOOK_PLACES);
        }
    }

    #[test]
    fn numbers_take_no_more_groups_than_they_need() {
        assert_eq!(number(0), [0]);
        assert_eq!(number(127), [0x7f]);
        assert_eq!(number(300), [0xac, 0x02]);
        assert_eq!(number(u32::MAX), [0xff, 0xff, 0xff, 0xff, 0x0f]);
    }
}
