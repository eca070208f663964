//! The wrapper on the line-ups of `examples/` and at the ends of its ranges.

use std::error::Error;
use wigeongold::{Bounds, CheckError, LISTING_MAX, Layer, Refused, check, rows};

const WORKED: &[u8] = include_bytes!("../../examples/worked.lineup");
const WORKED_LISTING: &str = "0 T 2 2 4\n1 H 4\n2 T 7 9 15\n";

#[test]
fn an_accepted_lineup_gives_its_listing() {
    let mut out = [0; LISTING_MAX];
    assert_eq!(check(WORKED, &mut out), Ok(WORKED_LISTING));

    let interview = include_bytes!("../../examples/interview.lineup");
    let expected =
        "0 T 12 12 30\n1 T 26 44 66\n2 T 46 86 126\n3 H 62\n4 H 102\n5 T 248 560 892\n6 H 308\n";
    assert_eq!(check(interview, &mut out), Ok(expected));
}

#[test]
fn a_full_lineup_has_bounds_for_every_row() {
    let mut out = [0; LISTING_MAX];
    let listing = check(include_bytes!("../../examples/full.lineup"), &mut out).unwrap();
    let rows: Vec<_> = rows(listing).collect();
    assert_eq!(rows.len(), 32);
    assert!((0..).zip(&rows).all(|(number, row)| row.row == number));
    let helpers = rows.iter().filter(|row| matches!(row.bounds, Bounds::Helper { .. }));
    assert_eq!(helpers.count(), 10);
}

#[test]
fn a_refused_lineup_says_why_and_where() {
    let mut out = [0; LISTING_MAX];
    let refused = Refused { number: 12, layer: Layer::Judge, place: 1 };
    let answer = check(include_bytes!("../../examples/refused.lineup"), &mut out);
    assert_eq!(answer, Err(CheckError::Refused(refused)));

    let empty = Refused { number: 2, layer: Layer::Reader, place: 0 };
    assert_eq!(check(&[], &mut out), Err(CheckError::Refused(empty)));
}

#[test]
fn a_listing_that_does_not_fit_changes_nothing() {
    assert_eq!(check(WORKED, &mut []), Err(CheckError::TooShort));
    assert_eq!(check(&[], &mut []), Err(CheckError::TooShort));

    let mut out = [0xA5; WORKED_LISTING.len()];
    let (_, short) = out.split_first_mut().unwrap();
    assert_eq!(check(WORKED, short), Err(CheckError::TooShort));
    assert_eq!(out, [0xA5; WORKED_LISTING.len()]);
    assert_eq!(check(WORKED, &mut out), Ok(WORKED_LISTING));
}

#[test]
fn errors_pass_through_the_error_trait() {
    fn listing<'a>(lineup: &[u8], out: &'a mut [u8]) -> Result<&'a str, Box<dyn Error>> {
        Ok(check(lineup, out)?)
    }
    let error = listing(&[0xFF], &mut [0; LISTING_MAX]).unwrap_err();
    let told =
        "refusal 1 by the reader at byte 0: the kind of the record is 4 to 7, which no record has";
    assert_eq!(error.to_string(), told);
}
