//! Checks a line-up file and tells a person the verdict:
//!
//!     cargo run --release --example check_file -- ../examples/interview.lineup

use std::process::ExitCode;
use std::{env, fs};
use wigeongold::{Bounds, CheckError, LISTING_MAX, TICKS_PER_MS, check, rows};

fn main() -> ExitCode {
    let Some(path) = env::args_os().nth(1) else {
        eprintln!("usage: check_file FILE");
        return ExitCode::from(2);
    };
    let lineup = match fs::read(&path) {
        Ok(lineup) => lineup,
        Err(error) => {
            eprintln!("{}: {error}", path.display());
            return ExitCode::from(2);
        }
    };
    let mut out = [0; LISTING_MAX];
    match check(&lineup, &mut out) {
        Ok(listing) => {
            print_bounds(listing);
            ExitCode::SUCCESS
        }
        Err(CheckError::Refused(refused)) => {
            println!("refused: {}", refused.reason());
            println!("number {}, layer {}, place {}", refused.number, refused.layer, refused.place);
            ExitCode::FAILURE
        }
        Err(error) => {
            eprintln!("{error}");
            ExitCode::from(2)
        }
    }
}

fn print_bounds(listing: &str) {
    println!("accepted: a job ends at the latest so long after its arrival");
    for row in rows(listing) {
        print!("row {:2}  ", row.row);
        match row.bounds {
            Bounds::Helper { normal } => println!("helper  normal {}", time(normal)),
            Bounds::Track { normal, mixed, long } => {
                let [normal, mixed, long] = [normal, mixed, long].map(time);
                println!("track   normal {normal}  mixed {mixed}  long {long}");
            }
        }
    }
}

/// A time in ticks and in milliseconds; sixteenths have four decimals.
fn time(ticks: u32) -> String {
    format!("{ticks:6} ticks ({:10.4} ms)", f64::from(ticks) / f64::from(TICKS_PER_MS))
}
