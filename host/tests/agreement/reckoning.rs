//! The listing of a line-up, reckoned from the documents alone and by other means than the core's:
//! bits as text, and every bound by trying each t and each s in turn. Slow and plain on purpose.

use std::cmp::max;

/// A row; a helper has `long` none.
#[derive(Debug, Clone, PartialEq)]
pub struct Row {
    pub period: i64,
    pub deadline: i64,
    pub short: i64,
    pub long: Option<i64>,
}

/// A refusal's number, layer and place.
#[derive(Debug, Clone, PartialEq)]
pub struct Fault(pub u8, pub &'static str, pub usize);

/// The bounds of a row: R, and for a track also mixed and long.
pub type Bounds = Vec<i64>;

/// The listing of a line-up and the number of its refusal, 0 where it is accepted.
pub fn listing(input: &[u8]) -> (String, u8) {
    let judged = read(input).and_then(|rows| Ok((judge(&rows)?, rows)));
    match judged {
        Err(Fault(number, layer, place)) => (format!("refused {number} {layer} {place}\n"), number),
        Ok((bounds, rows)) => (rows.iter().zip(bounds).enumerate().map(line).collect(), 0),
    }
}

fn line((number, (row, bounds)): (usize, (&Row, Bounds))) -> String {
    let letter = if row.long.is_some() { "T" } else { "H" };
    let bounds: Vec<String> = bounds.iter().map(i64::to_string).collect();
    format!("{number} {letter} {}\n", bounds.join(" "))
}

/// The rows of a line-up, or the reader's first fault.
pub fn read(input: &[u8]) -> Result<Vec<Row>, Fault> {
    let bits: String = input.iter().map(|byte| format!("{byte:08b}")).collect();
    let mut rows: Vec<Row> = Vec::new();
    let mut behind_row = false;
    let mut at = 0;
    loop {
        let refuse = |number| Err(Fault(number, "reader", at));
        let rest = &bits[8 * at..];
        if rest.is_empty() {
            return refuse(2);
        }
        let kind = number(&rest[..3]);
        let size = match kind {
            0 => 8,
            1 => 10,
            2 => 1 + number(&rest[3..8]) as usize,
            3 => 1,
            _ => return refuse(1),
        };
        if rest.len() < 8 * size {
            return refuse(2);
        }
        let (record, behind) = rest.split_at(8 * size);
        match kind {
            0 | 1 => {
                let fields = 3 + kind as usize;
                let (numbers, filling) = record[3..].split_at(18 * fields);
                if filling.contains('1') {
                    return refuse(3);
                }
                let field = |i: usize| number(&numbers[18 * i..18 * (i + 1)]);
                let long = (kind == 1).then(|| field(3));
                let row = Row { period: field(0), deadline: field(1), short: field(2), long };
                if !in_limits(&row) {
                    return refuse(5);
                }
                if rows.len() == 32 {
                    return refuse(6);
                }
                rows.push(row);
            }
            2 => {
                let bytes = &input[at + 1..at + size];
                if bytes.is_empty()
                    || !bytes.iter().all(|byte| (b' '..=b'~').contains(byte))
                    || !behind_row
                {
                    return refuse(4);
                }
            }
            _ => {
                if rows.is_empty() || number(&record[3..]) + 1 != rows.len() as i64 {
                    return refuse(7);
                }
                if !behind.is_empty() {
                    return refuse(8);
                }
                return Ok(rows);
            }
        }
        behind_row = kind < 2;
        at += size;
    }
}

fn number(bits: &str) -> i64 {
    bits.chars().fold(0, |value, bit| 2 * value + i64::from(bit == '1'))
}

fn in_limits(row: &Row) -> bool {
    let long = row.long.unwrap_or(row.short);
    [1, row.short, long, row.deadline, row.period, 262_143].is_sorted()
}

/// The bounds of every row, or the judge's first fault.
pub fn judge(rows: &[Row]) -> Result<Vec<Bounds>, Fault> {
    (0..rows.len())
        .map(|i| bounds(&rows[..i], &rows[i]).map_err(|number| Fault(number, "judge", i)))
        .collect()
}

fn bounds(above: &[Row], row: &Row) -> Result<Bounds, u8> {
    let normal = (1..=row.deadline).find(|&t| normal_demand(above, row, t) <= t).ok_or(10)?;
    let Some(long_budget) = row.long else {
        return Ok(vec![normal]);
    };
    let finish = |budget, s, limit| (1..=limit).find(|&t| late_demand(above, budget, s, t) <= t);
    let mut mixed = normal;
    for s in 0..normal {
        mixed = max(mixed, finish(row.short, s, row.deadline).ok_or(11)?);
    }
    let start = (0..=normal)
        .find(|&t| start_demand(above, t) <= t)
        .expect("a latest start exists where R does");
    let mut long = 0;
    for s in 0..max(1, start) {
        // the bound counts from s on, so a finish past s + D is past the deadline
        long = max(long, finish(long_budget, s, s + row.deadline).ok_or(12)? - s);
    }
    Ok(vec![normal, mixed, long])
}

fn normal_demand(above: &[Row], row: &Row, t: i64) -> i64 {
    row.short + above.iter().map(|a| up(t, a.period) * a.short).sum::<i64>()
}

fn late_demand(above: &[Row], budget: i64, s: i64, t: i64) -> i64 {
    let share = |a: &Row| match a.long {
        None => (s / a.period + 1) * a.short,
        Some(long) => up(t, a.period) * a.short + up(t - s, a.period) * (long - a.short),
    };
    budget + above.iter().map(share).sum::<i64>()
}

fn start_demand(above: &[Row], t: i64) -> i64 {
    above.iter().map(|a| (t / a.period + 1) * a.short).sum()
}

fn up(a: i64, b: i64) -> i64 {
    if a <= 0 { 0 } else { (a - 1) / b + 1 }
}
