//! The session in plain Rust, as one would write it without proofs, over the same boards and pools,
//! and the run that the Rattle program `session_cost` makes.

#![allow(
    dead_code,
    reason = "it keeps all that the core's session keeps, of which a run asks for a part"
)]

/// A set of row numbers from 0 to 31.
pub trait Board: Default {
    fn add(&mut self, row: u32) -> bool;
    fn remove(&mut self, row: u32) -> bool;
    fn first(&self) -> Option<u32>;
}

/// A fixed number of blocks, and the set of the free ones.
pub trait Pool {
    fn new(blocks: u32) -> Self;
    fn take(&mut self) -> Option<u32>;
    fn give(&mut self, block: u32) -> bool;
}

/// A board in one word.
#[derive(Default)]
pub struct WordBoard(u32);

impl Board for WordBoard {
    fn add(&mut self, row: u32) -> bool {
        let absent = row < 32 && self.0 >> row & 1 == 0;
        if absent {
            self.0 |= 1 << row;
        }
        absent
    }

    fn remove(&mut self, row: u32) -> bool {
        let present = row < 32 && self.0 >> row & 1 == 1;
        if present {
            self.0 ^= 1 << row;
        }
        present
    }

    fn first(&self) -> Option<u32> {
        (self.0 != 0).then(|| self.0.trailing_zeros())
    }
}

const OFF: u32 = u32::MAX;

/// A board as a chain of its rows in order; the chain ends with 32.
pub struct ChainBoard {
    head: u32,
    links: [u32; 32],
}

impl Default for ChainBoard {
    fn default() -> Self {
        ChainBoard { head: 32, links: [OFF; 32] }
    }
}

impl ChainBoard {
    fn holds(&self, row: u32) -> bool {
        self.links.get(row as usize).is_some_and(|&link| link != OFF)
    }

    fn last_below(&self, row: u32) -> usize {
        let mut place = self.head as usize;
        while self.links[place] < row {
            place = self.links[place] as usize;
        }
        place
    }
}

impl Board for ChainBoard {
    fn add(&mut self, row: u32) -> bool {
        if row >= 32 || self.holds(row) {
            return false;
        }
        if row < self.head {
            self.links[row as usize] = self.head;
            self.head = row;
        } else {
            let place = self.last_below(row);
            self.links[row as usize] = self.links[place];
            self.links[place] = row;
        }
        true
    }

    fn remove(&mut self, row: u32) -> bool {
        if !self.holds(row) {
            return false;
        }
        let behind = self.links[row as usize];
        if row == self.head {
            self.head = behind;
        } else {
            let place = self.last_below(row);
            self.links[place] = behind;
        }
        self.links[row as usize] = OFF;
        true
    }

    fn first(&self) -> Option<u32> {
        (self.head < 32).then_some(self.head)
    }
}

/// A pool in one word.
pub struct BitmapPool {
    blocks: u32,
    word: u64,
}

impl Pool for BitmapPool {
    fn new(blocks: u32) -> Self {
        let blocks = blocks.clamp(1, 64);
        BitmapPool { blocks, word: u64::MAX >> (64 - blocks) }
    }

    fn take(&mut self) -> Option<u32> {
        let block = self.word.trailing_zeros();
        if block >= self.blocks {
            return None;
        }
        self.word ^= 1 << block;
        Some(block)
    }

    fn give(&mut self, block: u32) -> bool {
        let taken = block < self.blocks && self.word >> block & 1 == 0;
        if taken {
            self.word |= 1 << block;
        }
        taken
    }
}

/// A pool as a free list; the list ends with 64.
pub struct FreeListPool {
    blocks: u32,
    count: u32,
    head: u32,
    links: [u32; 64],
}

impl Pool for FreeListPool {
    fn new(blocks: u32) -> Self {
        let mut pool =
            FreeListPool { blocks: blocks.clamp(1, 64), count: 0, head: 64, links: [OFF; 64] };
        for block in 0..pool.blocks {
            pool.give(block);
        }
        pool
    }

    fn take(&mut self) -> Option<u32> {
        let block = self.head;
        let link = self.links.get_mut(block as usize)?;
        self.head = std::mem::replace(link, OFF);
        self.count -= 1;
        Some(block)
    }

    fn give(&mut self, block: u32) -> bool {
        if block >= self.blocks || self.links[block as usize] != OFF {
            return false;
        }
        self.links[block as usize] = self.head;
        self.head = block;
        self.count += 1;
        true
    }
}

#[derive(Clone, Copy, PartialEq)]
pub enum Kind {
    Normal,
    Abnormal,
}

#[derive(Clone, Copy)]
pub enum Row {
    Track { period: u32, short: u32, long: u32 },
    Helper { period: u32, short: u32 },
}

impl Row {
    fn period(self) -> u32 {
        match self {
            Row::Track { period, .. } | Row::Helper { period, .. } => period,
        }
    }

    fn budget(self, kind: Kind) -> u32 {
        match (self, kind) {
            (Row::Track { long, .. }, Kind::Abnormal) => long,
            (Row::Track { short, .. } | Row::Helper { short, .. }, _) => short,
        }
    }
}

#[derive(Clone, Copy)]
struct Job {
    kind: Kind,
    arrival: u32,
    block: u32,
    ticks: u32,
}

/// A refusal's number, and its place: the clock or a row.
pub struct Fault {
    pub number: u8,
    pub place: u32,
}

/// What `begin` hands out and `report` takes back.
#[derive(PartialEq)]
pub struct Turn {
    session: u32,
    clock: u32,
    work: Option<(u32, u32)>,
}

#[derive(Clone, Copy)]
pub enum Outcome {
    Idle,
    GoesOn,
    Finished,
    Cut,
}

const LAST_CLOCK: u32 = 4_000_000_000;

/// Runs an accepted plan tick by tick.
pub struct Session<'p, B, P> {
    plan: &'p [Row],
    board: B,
    pool: P,
    number: u32,
    clock: u32,
    mode: Kind,
    jobs: [Option<Job>; 32],
    ready: [u32; 32],
    turn: Option<Turn>,
}

impl<'p, B: Board, P: Pool> Session<'p, B, P> {
    pub fn open(plan: &'p [Row], pool: P, number: u32) -> Self {
        Session {
            plan,
            board: B::default(),
            pool,
            number,
            clock: 0,
            mode: Kind::Normal,
            jobs: [None; 32],
            ready: [0; 32],
            turn: None,
        }
    }

    /// Admits a job and gives its block.
    pub fn arrive(&mut self, row: u32, kind: Kind) -> Result<u32, Fault> {
        self.check_ready()?;
        let refuse = |number| Err(Fault { number, place: row });
        let at = row as usize;
        let Some(&asked) = self.plan.get(at) else {
            return refuse(15);
        };
        let helper = matches!(asked, Row::Helper { .. });
        if helper && kind == Kind::Abnormal {
            return refuse(16);
        }
        if self.clock < self.ready[at] {
            return refuse(17);
        }
        if helper && self.mode == Kind::Abnormal {
            return refuse(18);
        }
        if self.jobs[at].is_some() {
            return refuse(19);
        }
        let Some(block) = self.pool.take() else {
            return refuse(20);
        };
        self.jobs[at] = Some(Job { kind, arrival: self.clock, block, ticks: 0 });
        self.ready[at] = self.clock + asked.period();
        if kind == Kind::Abnormal {
            self.mode = Kind::Abnormal;
        }
        self.board.add(row);
        Ok(block)
    }

    /// Opens a turn for the board's first row, or an idle one.
    pub fn begin(&mut self) -> Result<Turn, Fault> {
        self.check_ready()?;
        let due = |row: u32| Some((row, self.jobs[row as usize]?.block));
        let work = self.board.first().and_then(due);
        let turn = || Turn { session: self.number, clock: self.clock, work };
        self.turn = Some(turn());
        Ok(turn())
    }

    /// Adds one tick to the clock and to the job of the turn; a refused turn is handed back.
    pub fn report(&mut self, turn: Turn, finished: bool) -> Result<Outcome, (Fault, Turn)> {
        if self.turn.as_ref() != Some(&turn) {
            return Err((Fault { number: 21, place: self.clock }, turn));
        }
        if turn.work.is_none() && finished {
            return Err((Fault { number: 22, place: self.clock }, turn));
        }
        let outcome = turn.work.map_or(Outcome::Idle, |(row, _)| self.tick(row, finished));
        if self.board.first().is_none() {
            self.mode = Kind::Normal;
        }
        self.clock += 1;
        self.turn = None;
        Ok(outcome)
    }

    fn tick(&mut self, row: u32, finished: bool) -> Outcome {
        let at = row as usize;
        let Some(job) = &mut self.jobs[at] else {
            return Outcome::Idle;
        };
        job.ticks += 1;
        if !finished && job.ticks < self.plan[at].budget(job.kind) {
            return Outcome::GoesOn;
        }
        let block = job.block;
        self.jobs[at] = None;
        self.board.remove(row);
        self.pool.give(block);
        if finished { Outcome::Finished } else { Outcome::Cut }
    }

    fn check_ready(&self) -> Result<(), Fault> {
        let number = if self.turn.is_some() {
            13
        } else if self.clock == LAST_CLOCK {
            14
        } else {
            return Ok(());
        };
        Err(Fault { number, place: self.clock })
    }
}

/// Two tracks and a helper in turn; the periods rise by 6 from 24.
fn plan() -> [Row; 16] {
    std::array::from_fn(|k| {
        let period = 24 + 6 * k as u32;
        match k % 3 {
            2 => Row::Helper { period, short: 2 },
            _ => Row::Track { period, short: 2, long: 3 },
        }
    })
}

/// Runs a session of so many ticks, each with an arrival of a random row, and gives the checksum of
/// the answers.
pub fn run<B: Board, P: Pool>(ticks: u32) -> u64 {
    let plan = plan();
    let mut session: Session<'_, B, P> = Session::open(&plan, P::new(16), 1);
    let mut random = 1u32;
    let mut sum = 0u64;
    let mut mix = |answer: u32| sum = sum.wrapping_mul(31).wrapping_add(u64::from(answer));
    for _ in 0..ticks {
        random = random.wrapping_mul(1_664_525).wrapping_add(1_013_904_223);
        let kind = if random >> 20 & 15 == 0 { Kind::Abnormal } else { Kind::Normal };
        mix(session.arrive(random >> 24 & 15, kind).unwrap_or_else(refusal_number));
        let done = session.begin().map(|turn| match session.report(turn, false) {
            Ok(outcome) => outcome as u32,
            Err((fault, _)) => refusal_number(fault),
        });
        mix(done.unwrap_or_else(refusal_number));
    }
    sum
}

fn refusal_number(fault: Fault) -> u32 {
    100 + u32::from(fault.number)
}

/// A run of so many ticks, which gives the checksum of the answers.
pub type Run = fn(u32) -> u64;

/// Each pair of board and pool by its name, with its run.
pub const RUNS: [(&str, Run); 4] = [
    ("word and bit map", run::<WordBoard, BitmapPool>),
    ("word and free list", run::<WordBoard, FreeListPool>),
    ("chain and bit map", run::<ChainBoard, BitmapPool>),
    ("chain and free list", run::<ChainBoard, FreeListPool>),
];
