//! The check call in plain Rust: the core's reader, its search by jumps from demand to demand, and
//! its listing.

const MOST_ROWS: usize = 32;
const MOST_TICKS: u32 = 262_143;

/// A row; a helper has no long budget.
#[derive(Clone, Copy, Default)]
struct Row {
    period: u32,
    deadline: u32,
    short: u32,
    long: Option<u32>,
}

impl Row {
    fn in_limits(&self) -> bool {
        let long = self.long.unwrap_or(self.short);
        1 <= self.short
            && self.short <= long
            && long <= self.deadline
            && self.deadline <= self.period
            && self.period <= MOST_TICKS
    }
}

#[derive(Clone, Copy, Default)]
struct Bounds {
    normal: u32,
    late: Option<(u32, u32)>,
}

struct Fault {
    number: u8,
    layer: &'static str,
    place: usize,
}

/// Writes the listing of a line-up to the front of `out` and gives its length, or 0 where it does
/// not fit.
pub fn check_lineup(input: &[u8], out: &mut [u8]) -> usize {
    let mut text = Text::new();
    if let Err(fault) = list(input, &mut text) {
        text.push_all(b"refused ");
        text.push_number(u32::from(fault.number));
        text.push(b' ');
        text.push_all(fault.layer.as_bytes());
        text.push_field(fault.place as u32);
        text.push(b'\n');
    }
    let text = text.as_bytes();
    match out.get_mut(..text.len()) {
        Some(front) => {
            front.copy_from_slice(text);
            text.len()
        }
        None => 0,
    }
}

fn list(input: &[u8], text: &mut Text) -> Result<(), Fault> {
    let rows = read_rows(input)?;
    let rows = rows.as_slice();
    let bounds = judge(rows)?;
    for (place, (row, bounds)) in rows.iter().zip(&bounds).enumerate() {
        text.push_number(place as u32);
        text.push_all(if row.long.is_some() { b" T" } else { b" H" });
        text.push_field(bounds.normal);
        if let Some((mixed, long)) = bounds.late {
            text.push_field(mixed);
            text.push_field(long);
        }
        text.push(b'\n');
    }
    Ok(())
}

/// Up to 32 rows.
struct Rows {
    rows: [Row; MOST_ROWS],
    count: usize,
}

impl Rows {
    fn as_slice(&self) -> &[Row] {
        &self.rows[..self.count]
    }
}

fn read_rows(input: &[u8]) -> Result<Rows, Fault> {
    let mut all = Rows { rows: [Row::default(); MOST_ROWS], count: 0 };
    let mut behind_row = false;
    let mut at = 0;
    loop {
        let rest = &input[at..];
        let refuse = |number| Fault { number, layer: "reader", place: at };
        let first = *rest.first().ok_or(refuse(2))?;
        let size = match first >> 5 {
            kind @ (0 | 1) => {
                let (row, filling, size) =
                    if kind == 0 { helper(rest) } else { track(rest) }.ok_or(refuse(2))?;
                if filling != 0 {
                    return Err(refuse(3));
                }
                if !row.in_limits() {
                    return Err(refuse(5));
                }
                *all.rows.get_mut(all.count).ok_or(refuse(6))? = row;
                all.count += 1;
                behind_row = true;
                size
            }
            2 => {
                let size = 1 + usize::from(first & 31);
                let label = rest.get(1..size).ok_or(refuse(2))?;
                if label.is_empty()
                    || !behind_row
                    || !label.iter().all(|byte| (b' '..=b'~').contains(byte))
                {
                    return Err(refuse(4));
                }
                behind_row = false;
                size
            }
            3 => {
                if usize::from(first & 31) + 1 != all.count {
                    return Err(refuse(7));
                }
                if rest.len() > 1 {
                    return Err(refuse(8));
                }
                return Ok(all);
            }
            _ => return Err(refuse(1)),
        };
        at += size;
    }
}

/// The helper's row, its filling bits and its size.
fn helper(rest: &[u8]) -> Option<(Row, u8, usize)> {
    let bits = u64::from_be_bytes(*rest.first_chunk()?);
    let field = |shift: u32| (bits >> shift) as u32 & MOST_TICKS;
    let row = Row { period: field(43), deadline: field(25), short: field(7), long: None };
    Some((row, bits as u8 & 0x7F, 8))
}

/// The track's row, its filling bits and its size.
fn track(rest: &[u8]) -> Option<(Row, u8, usize)> {
    let record: &[u8; 10] = rest.first_chunk()?;
    let bits = u64::from_be_bytes(*record.first_chunk()?);
    let tail = u64::from_be_bytes(*record.last_chunk()?);
    let field = |shift: u32| (bits >> shift) as u32 & MOST_TICKS;
    let long = (tail >> 5) as u32 & MOST_TICKS;
    let row = Row { period: field(43), deadline: field(25), short: field(7), long: Some(long) };
    Some((row, tail as u8 & 0x1F, 10))
}

fn judge(rows: &[Row]) -> Result<[Bounds; MOST_ROWS], Fault> {
    let mut all = [Bounds::default(); MOST_ROWS];
    for (place, (row, bounds)) in rows.iter().zip(&mut all).enumerate() {
        *bounds = bounds_of(&rows[..place], row).map_err(|number| Fault {
            number,
            layer: "judge",
            place,
        })?;
    }
    Ok(all)
}

fn bounds_of(above: &[Row], row: &Row) -> Result<Bounds, u8> {
    let normal = least(above, row.short, row.deadline, normal_share).ok_or(10)?;
    let Some(long_budget) = row.long else {
        return Ok(Bounds { normal, late: None });
    };
    let mut mixed = normal;
    for s in 0..normal {
        let finish = least(above, row.short, row.deadline, late_share(s)).ok_or(11)?;
        mixed = mixed.max(finish);
    }
    let start = least(above, 0, normal - row.short, start_share).unwrap_or(0);
    let mut long = 0;
    for s in 0..start.max(1) {
        let finish = least(above, long_budget, row.deadline + s, late_share(s)).ok_or(12)?;
        long = long.max(finish - s);
    }
    Ok(Bounds { normal, late: Some((mixed, long)) })
}

/// The least window up to `limit` whose demand is at most itself, by jumps from demand to demand.
fn least(above: &[Row], own: u32, limit: u32, share: impl Fn(&Row, u32) -> u64) -> Option<u32> {
    let mut window = u64::from(own);
    while window <= u64::from(limit) {
        let demand =
            u64::from(own) + above.iter().map(|row| share(row, window as u32)).sum::<u64>();
        if demand <= window {
            return Some(window as u32);
        }
        window = demand;
    }
    None
}

fn normal_share(row: &Row, t: u32) -> u64 {
    u64::from(t.div_ceil(row.period)) * u64::from(row.short)
}

fn late_share(s: u32) -> impl Fn(&Row, u32) -> u64 {
    move |row, t| match row.long {
        None => u64::from(s / row.period + 1) * u64::from(row.short),
        Some(long) => {
            let late = t.saturating_sub(s).div_ceil(row.period);
            normal_share(row, t) + u64::from(late) * u64::from(long - row.short)
        }
    }
}

fn start_share(row: &Row, t: u32) -> u64 {
    u64::from(t / row.period + 1) * u64::from(row.short)
}

/// A text in a fixed buffer with room for every listing.
struct Text {
    bytes: [u8; 2048],
    len: usize,
}

impl Text {
    fn new() -> Self {
        Text { bytes: [0; 2048], len: 0 }
    }

    fn as_bytes(&self) -> &[u8] {
        &self.bytes[..self.len]
    }

    fn push(&mut self, byte: u8) {
        self.bytes[self.len] = byte;
        self.len += 1;
    }

    fn push_all(&mut self, bytes: &[u8]) {
        self.bytes[self.len..][..bytes.len()].copy_from_slice(bytes);
        self.len += bytes.len();
    }

    fn push_number(&mut self, n: u32) {
        if n >= 10 {
            self.push_number(n / 10);
        }
        self.push(b'0' + (n % 10) as u8);
    }

    fn push_field(&mut self, n: u32) {
        self.push(b' ');
        self.push_number(n);
    }
}
