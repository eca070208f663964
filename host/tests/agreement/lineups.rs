//! Line-ups from a generator with a fixed seed: rows of both kinds, tight and loose, with labels,
//! and damage of every sort.

use super::reckoning::{self, Row};

/// Marsaglia's xorshift, 64 bits.
pub struct Random(u64);

impl Random {
    pub fn new(seed: u64) -> Self {
        Random(seed)
    }

    fn next(&mut self) -> u64 {
        self.0 ^= self.0 << 13;
        self.0 ^= self.0 >> 7;
        self.0 ^= self.0 << 17;
        self.0
    }

    /// A number from `low` to `high`, both included.
    pub fn within(&mut self, low: i64, high: i64) -> i64 {
        low + (self.next() % (high - low + 1) as u64) as i64
    }

    fn index(&mut self, length: usize) -> usize {
        (self.next() % length as u64) as usize
    }

    fn one_in(&mut self, n: u64) -> bool {
        self.next().is_multiple_of(n)
    }
}

/// A record's bytes from its bits.
fn bytes(bits: &str) -> Vec<u8> {
    let byte = |eight: &[u8]| eight.iter().fold(0, |value, bit| 2 * value + (bit - b'0'));
    bits.as_bytes().chunks(8).map(byte).collect()
}

fn row_record(row: &Row) -> Vec<u8> {
    let Row { period, deadline, short, long } = row;
    bytes(&match long {
        None => format!("000{period:018b}{deadline:018b}{short:018b}0000000"),
        Some(long) => format!("001{period:018b}{deadline:018b}{short:018b}{long:018b}00000"),
    })
}

fn label_record(text: &[u8]) -> Vec<u8> {
    let mut record = bytes(&format!("010{:05b}", text.len()));
    record.extend(text);
    record
}

fn end_record(count: usize) -> Vec<u8> {
    bytes(&format!("011{:05b}", count.wrapping_sub(1) % 32))
}

fn label(random: &mut Random) -> Vec<u8> {
    let length = random.within(1, 31);
    let text: Vec<u8> = (0..length).map(|_| random.within(0x20, 0x7E) as u8).collect();
    label_record(&text)
}

/// How many rows, their periods and their budgets: most small, so that trying every t and s stays
/// quick.
struct Shape {
    rows: (i64, i64),
    periods: (i64, i64),
    budgets: (i64, i64),
    tracks: bool,
}

const SHAPES: [Shape; 7] = [
    Shape { rows: (1, 3), periods: (1, 12), budgets: (1, 4), tracks: true },
    Shape { rows: (1, 5), periods: (4, 60), budgets: (1, 8), tracks: true },
    Shape { rows: (2, 8), periods: (30, 300), budgets: (1, 20), tracks: true },
    Shape { rows: (9, 32), periods: (200, 900), budgets: (1, 9), tracks: true },
    Shape { rows: (1, 6), periods: (2_000, 262_143), budgets: (1, 120), tracks: true },
    Shape { rows: (1, 32), periods: (1_000, 262_143), budgets: (1, 9_000), tracks: false },
    Shape { rows: (32, 33), periods: (2_000, 9_000), budgets: (1, 6), tracks: true },
];

const LONG: Shape =
    Shape { rows: (2, 4), periods: (3_000, 20_000), budgets: (50, 700), tracks: true };

fn row(random: &mut Random, shape: &Shape) -> Row {
    let period = random.within(shape.periods.0, shape.periods.1);
    let short = random.within(shape.budgets.0, shape.budgets.1).min(period);
    let long =
        (shape.tracks && !random.one_in(3)).then(|| random.within(short, 2 * short).min(period));
    let least = long.unwrap_or(short);
    let deadline = match random.index(4) {
        0 => random.within(least, period),
        1 => random.within(least, period.min(4 * least)),
        _ => period,
    };
    Row { period, deadline, short, long }
}

/// The rows of a line-up with one of the shapes, or of a busy one.
pub fn rows(random: &mut Random) -> Vec<Row> {
    match SHAPES.get(random.index(SHAPES.len() + 2)) {
        Some(shape) => rows_of(random, shape),
        None => busy_rows(random),
    }
}

/// A few rows that take nearly all of the processor, and below them a track with a long period. Its
/// long bound often comes from an instant behind the first.
fn busy_rows(random: &mut Random) -> Vec<Row> {
    let mut rows = Vec::new();
    for _ in 0..random.within(1, 3) {
        let period = random.within(2, 12);
        let short = random.within(1, period.min(4));
        let long = random.one_in(2).then(|| random.within(short, period.min(short + 3)));
        rows.push(Row { period, deadline: period, short, long });
    }
    rows.sort_by_key(|row| row.deadline);
    let short = random.within(1, 3);
    let long = random.within(short, 6);
    let period = random.within(60, 400);
    rows.push(Row { period, deadline: period, short, long: Some(long) });
    if random.one_in(3) {
        tighten(random, &mut rows);
    }
    rows
}

/// The rows of a line-up with long windows.
pub fn long_rows(random: &mut Random) -> Vec<Row> {
    rows_of(random, &LONG)
}

/// Rows of a shape, mostly with the shorter deadlines first.
fn rows_of(random: &mut Random, shape: &Shape) -> Vec<Row> {
    let count = random.within(shape.rows.0, shape.rows.1);
    let mut rows: Vec<Row> = (0..count).map(|_| row(random, shape)).collect();
    if !random.one_in(4) {
        rows.sort_by_key(|row| row.deadline);
    }
    if random.one_in(3) {
        tighten(random, &mut rows);
    }
    rows
}

/// Sets a deadline to one of the row's bounds, or to one tick less.
fn tighten(random: &mut Random, rows: &mut [Row]) {
    let at = random.index(rows.len());
    let (front, _) = rows.split_at_mut(at + 1);
    let Ok(bounds) = reckoning::judge(front) else {
        return;
    };
    let row = &mut front[at];
    let bound = bounds[at][random.index(bounds[at].len())];
    row.deadline = (bound - random.within(0, 1)).max(row.long.unwrap_or(row.short));
}

/// The records of a line-up, labels behind some of the rows.
pub fn records(random: &mut Random, rows: &[Row]) -> Vec<Vec<u8>> {
    let mut records = Vec::new();
    for row in rows {
        records.push(row_record(row));
        if random.one_in(3) {
            records.push(label(random));
        }
    }
    records.push(end_record(rows.len()));
    records
}

/// Damages a line-up in one of many ways. What comes out may still be a good one.
pub fn damaged(random: &mut Random, mut records: Vec<Vec<u8>>) -> Vec<u8> {
    let at = random.index(records.len());
    let last = records.len() - 1;
    match random.index(16) {
        0 => drop(records.remove(at)),
        1 => records.insert(at, records[at].clone()),
        2 => records.swap(at, last),
        3 => records[last] = end_record(random.index(34)),
        4 => records.insert(at, label(random)),
        5 => records.insert(at, label_record(&[])),
        6 => records.insert(at, label_record(&[b'a', random.within(0, 255) as u8])),
        7 => records.insert(at, vec![random.within(0x80, 0xFF) as u8]),
        8 => *records[at].last_mut().expect("no record is empty") ^= 1 << random.index(8),
        9 => records[at] = (0..records[at].len()).map(|_| random.within(0, 255) as u8).collect(),
        10 => {
            records.push((0..random.within(1, 12)).map(|_| random.within(0, 255) as u8).collect())
        }
        _ => return damaged_bytes(random, records.concat()),
    }
    records.concat()
}

fn damaged_bytes(random: &mut Random, mut input: Vec<u8>) -> Vec<u8> {
    match random.index(4) {
        0 => input.truncate(random.index(input.len())),
        1 => input = (0..random.within(0, 40)).map(|_| random.within(0, 255) as u8).collect(),
        _ => {
            for _ in 0..random.within(1, 3) {
                let at = random.index(input.len());
                input[at] ^= 1 << random.index(8);
            }
        }
    }
    input
}
