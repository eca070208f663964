//! The core against a reckoning that shares nothing with it, on line-ups of every sort. The plain
//! Rust that the benchmark measures has to agree too.

mod lineups;
#[path = "../../benches/cost/plain_check.rs"]
mod plain_check;
mod reckoning;

use lineups::Random;
use reckoning::Row;
use wigeongold::{CheckError, LISTING_MAX, check};

/// Line-ups as they were generated, and as many damaged ones.
const LINEUPS: usize = 10_000;

/// Every length of buffer is tried for one line-up in so many.
const EVERY_LENGTH: usize = 4;

/// What the buffer holds before a call: no byte of a listing.
fn unwritten(length: usize) -> Vec<u8> {
    (0..length).map(|i| 0x80 | i as u8).collect()
}

/// Calls the core with a buffer of this length; its answer and the whole buffer must be as the
/// listing has it.
fn agrees(input: &[u8], listing: &str, refused: bool, length: usize) {
    let told = || format!("line-up {input:02X?}, {length} bytes for {listing:?}");
    let mut buffer = unwritten(length);
    let answer = check(input, &mut buffer);
    match answer {
        Err(CheckError::TooShort) => assert!(length < listing.len(), "{}", told()),
        Ok(text) => assert!(!refused && text == listing, "{text:?}: {}", told()),
        Err(CheckError::Refused(fault)) => {
            let text = format!("refused {} {} {}\n", fault.number, fault.layer, fault.place);
            assert!(refused && text == listing, "{text:?}: {}", told());
        }
        Err(CheckError::Mismatch) => panic!("{}", told()),
    }
    let mut expected = unwritten(length);
    if length >= listing.len() {
        expected[..listing.len()].copy_from_slice(listing.as_bytes());
    }
    assert!(buffer == expected, "the buffer: {}", told());
}

/// Both the core and the benchmark's plain Rust, with a buffer that has room.
fn both_agree(input: &[u8], listing: &str, refused: bool) {
    agrees(input, listing, refused, LISTING_MAX);
    let mut buffer = [0; LISTING_MAX];
    let length = plain_check::check_lineup(input, &mut buffer);
    assert!(&buffer[..length] == listing.as_bytes(), "line-up {input:02X?} in plain Rust");
}

/// Line-ups whose windows are long: budgets of hundreds of ticks, so that thousands of instants
/// count.
#[test]
fn long_windows_agree() {
    let mut random = Random::new(0x4C4F_4E47);
    let mut accepted = 0;
    for _ in 0..150 {
        let rows = lineups::long_rows(&mut random);
        let input = lineups::records(&mut random, &rows).concat();
        let (listing, number) = reckoning::listing(&input);
        accepted += u32::from(number == 0);
        both_agree(&input, &listing, number != 0);
    }
    println!("long windows: 150 line-ups, {accepted} of them accepted");
    assert!(accepted >= 20);
}

/// The greatest numbers that a line-up can have.
#[test]
fn the_ends_of_the_ranges_agree() {
    let most = 262_143;
    let helper = |short| Row { period: most, deadline: most, short, long: None };
    let track = |short, long| Row { period: most, deadline: most, short, long: Some(long) };
    for rows in [
        vec![helper(most)],
        vec![helper(most), helper(1)],
        vec![track(1, most)],
        vec![track(1, most), track(1, 1)],
        vec![helper(1), track(1, most - 1)],
        vec![helper(1), track(1, most)],
        vec![track(1, 32_767); 8],
        vec![track(1, 32_768); 8],
    ] {
        let input = lineups::records(&mut Random::new(1), &rows).concat();
        let (listing, number) = reckoning::listing(&input);
        both_agree(&input, &listing, number != 0);
    }
}

#[test]
fn the_core_agrees_with_the_reckoning() {
    let mut random = Random::new(0x5745_4947_454F_4E21);
    let mut counts = [0u32; 13];
    let mut lengths = 0;
    for turn in 0..LINEUPS {
        let rows = lineups::rows(&mut random);
        let records = lineups::records(&mut random, &rows);
        let good = records.concat();
        let bad = lineups::damaged(&mut random, records);
        for input in [good, bad] {
            let (listing, number) = reckoning::listing(&input);
            counts[usize::from(number)] += 1;
            both_agree(&input, &listing, number != 0);
            if turn % EVERY_LENGTH == 0 {
                for length in 0..=listing.len() + 1 {
                    agrees(&input, &listing, number != 0, length);
                    lengths += 1;
                }
            }
        }
    }
    println!("{} line-ups, {lengths} calls with shorter buffers", 2 * LINEUPS);
    println!("accepted: {}", counts[0]);
    for (number, count) in counts.iter().enumerate().skip(1) {
        println!("refused by {number}: {count}");
    }
    // 9 is the writer's
    for number in (0..13).filter(|number| *number != 9) {
        assert!(counts[number] >= 20, "too few of number {number}");
    }
}
