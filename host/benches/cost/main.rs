//! What the core costs beside plain Rust: `cargo bench`.
//!
//! Every figure is a median over repetitions that alternate between the core and plain Rust, so
//! that what else the machine does falls on both. Both give the same answers, or the run fails.

mod plain_check;
mod plain_session;

use plain_session::RUNS;
use std::hint::black_box;
use std::path::Path;
use std::process::Command;
use std::time::{Duration, Instant};
use wigeongold::{CheckError, LISTING_MAX, check, write_listing};

const REPETITIONS: usize = 51;

/// How long a repetition of the check call takes at least: mostly too short to be interrupted.
const REPETITION: Duration = Duration::from_millis(1);

/// Three calls make a tick: some ten million calls.
const SESSION_TICKS: u32 = 3_333_334;

fn main() {
    println!("medians of {REPETITIONS} repetitions, core and plain Rust in turn");
    println!("buffers are not cleared in between");
    println!("{:36} {:>12} {:>12} {:>6}", "", "core", "plain Rust", "ratio");
    compare_checks();
    compare_readers();
    compare_sessions();
}

fn compare_checks() {
    for (periods, scale) in [("short", 1), ("long", 100)] {
        for rows in [4, 16, 32] {
            let lineup = lineup(rows, scale, false);
            assert!(
                check(&lineup, &mut [0; LISTING_MAX]).is_ok(),
                "the line-up is meant to be accepted"
            );
            print_line(
                &format!("check, {rows} rows, {periods} periods"),
                &time_checks(&lineup),
                "µs",
                1e6,
            );
        }
    }
}

/// The reader alone is not exported. So line-ups whose last byte is refused: nothing is judged, and
/// one short line is listed.
fn compare_readers() {
    for (name, labels) in [("read 32 rows", false), ("read 32 rows with labels", true)] {
        let mut lineup = lineup(32, 1, labels);
        if let Some(end) = lineup.last_mut() {
            *end ^= 1;
        }
        let mut out = [0; LISTING_MAX];
        let refused = check(&lineup, &mut out);
        assert!(matches!(refused, Err(CheckError::Refused(fault)) if fault.number == 7));
        let times = time_checks(&lineup);
        print_line(name, &times, "ns", 1e9);
        let speed = |seconds: f64| lineup.len() as f64 / seconds / 1e6;
        let core = median(&times, |(core, _)| speed(core));
        let plain = median(&times, |(_, plain)| speed(plain));
        println!("{:36} {core:7.0} MB/s {plain:7.0} MB/s", format!("  {} bytes", lineup.len()));
    }
}

/// The session as a Rattle program, which runs all pairs of board and pool, and the same calls in
/// plain Rust.
fn compare_sessions() {
    let program = Path::new(env!("CARGO_MANIFEST_DIR")).join("../crates/session_cost/out/session_cost");
    if !program.exists() {
        println!("session: not measured; build the program by `rt run` in crates/session_cost");
        return;
    }
    let mut times = [const { Vec::new() }; RUNS.len()];
    for _ in 0..REPETITIONS {
        let told = core_sessions(&program);
        for (times, (line, (name, run))) in times.iter_mut().zip(told.lines().zip(RUNS)) {
            let start = Instant::now();
            let sum = run(black_box(SESSION_TICKS));
            let plain = start.elapsed().as_secs_f64() / f64::from(SESSION_TICKS) / 3.0;
            let core = line
                .strip_prefix(&format!("{name}: checksum {sum}, "))
                .and_then(|rest| rest.strip_suffix(" ns a call")?.parse::<f64>().ok())
                .unwrap_or_else(|| panic!("plain Rust has checksum {sum}, the core: {line}"));
            times.push((core / 1e9, plain));
        }
    }
    for (times, (name, _)) in times.iter().zip(RUNS) {
        print_line(&format!("session call, {name}"), times, "ns", 1e9);
    }
}

/// What the Rattle program prints: a line for each pair, with the checksum of the answers and the
/// time of a call.
fn core_sessions(program: &Path) -> String {
    let output =
        Command::new(program).arg(SESSION_TICKS.to_string()).output().expect("the program runs");
    String::from_utf8(output.stdout).expect("the program prints text")
}

/// The seconds of a check by the core and by plain Rust, for each repetition.
fn time_checks(lineup: &[u8]) -> Vec<(f64, f64)> {
    let (mut core, mut plain) = ([0; LISTING_MAX], [0; LISTING_MAX]);
    let length = write_listing(lineup, &mut core);
    assert_eq!(length, plain_check::check_lineup(lineup, &mut plain));
    assert!(core == plain, "the core and plain Rust differ");

    let mut by_core = || write_listing(black_box(lineup), &mut core);
    let mut by_plain = || plain_check::check_lineup(black_box(lineup), &mut plain);
    let calls = calls_for(REPETITION, &mut by_core);
    (0..REPETITIONS).map(|_| (time(calls, &mut by_core), time(calls, &mut by_plain))).collect()
}

/// How many calls take so long.
fn calls_for(duration: Duration, call: &mut impl FnMut() -> usize) -> u32 {
    let mut calls = 1;
    while time(calls, call) * f64::from(calls) < duration.as_secs_f64() {
        calls *= 2;
    }
    calls
}

/// The seconds of one call, over so many.
fn time(calls: u32, call: &mut impl FnMut() -> usize) -> f64 {
    let start = Instant::now();
    for _ in 0..calls {
        black_box(call());
    }
    start.elapsed().as_secs_f64() / f64::from(calls)
}

/// The median of a figure of each repetition.
fn median(times: &[(f64, f64)], figure: impl Fn((f64, f64)) -> f64) -> f64 {
    let mut figures: Vec<f64> = times.iter().copied().map(figure).collect();
    figures.sort_by(f64::total_cmp);
    figures[figures.len() / 2]
}

fn print_line(name: &str, times: &[(f64, f64)], unit: &str, per_second: f64) {
    let core = median(times, |(core, _)| core) * per_second;
    let plain = median(times, |(_, plain)| plain) * per_second;
    let ratio = median(times, |(core, plain)| core / plain);
    println!("{name:36} {core:9.2} {unit} {plain:9.2} {unit} {ratio:6.2}");
}

/// A line-up that is accepted: two tracks and a helper in turn, the periods nearly an arithmetic
/// series, the budgets 2 and 3 times `scale`.
fn lineup(rows: u32, scale: u32, labels: bool) -> Vec<u8> {
    let mut bytes = Vec::new();
    for k in 0..rows {
        let period = u128::from(scale * rows.max(8) * (4 + k) / 2 + k);
        let (short, long) = (u128::from(2 * scale), u128::from(3 * scale));
        let times = (period << 18 | period) << 18 | short;
        if k % 3 == 2 {
            bytes.extend_from_slice(&(times << 7).to_be_bytes()[8..]);
        } else {
            bytes.extend_from_slice(&(1 << 77 | (times << 18 | long) << 5).to_be_bytes()[6..]);
        }
        if labels {
            bytes.push(2 << 5 | 31);
            bytes.extend_from_slice(&[b'a'; 31]);
        }
    }
    bytes.push((3 << 5) + (rows - 1) as u8);
    bytes
}
