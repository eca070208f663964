//! The timing core of a live recorder, for a Rust host.
//!
//! A *line-up* is the table of the jobs that share the processor: tracks, which store somebody's
//! voice, and helpers, which draw meters. [`check`] reads a line-up from its bytes and judges by
//! response-time analysis whether every job makes its deadline. The work is done by the core, which is written and proved
//! in Rattle and linked as a static library; this crate only declares its call and turns the answer
//! into Rust's types. Nothing allocates.
//!
//! ```
//! use wigeongold::{Bounds, CheckError, LISTING_MAX, Layer, Refused, check, rows};
//!
//! let mut out = [0; LISTING_MAX];
//!
//! // one track with period 10, deadline 10, short budget 2 and long budget 4, and the end record
//! let lineup = [0x20, 0x00, 0x50, 0x00, 0x14, 0x00, 0x01, 0x00, 0x00, 0x80, 0x60];
//! let listing = check(&lineup, &mut out)?;
//! assert_eq!(listing, "0 T 2 2 4\n");
//! for row in rows(listing) {
//!     assert_eq!(row.bounds, Bounds::Track { normal: 2, mixed: 2, long: 4 });
//! }
//!
//! // the same without its end record
//! let refused = Refused { number: 2, layer: Layer::Reader, place: 10 };
//! assert_eq!(check(&lineup[..10], &mut out), Err(CheckError::Refused(refused)));
//! # Ok::<(), CheckError>(())
//! ```

mod error;
mod listing;

pub use error::{CheckError, Layer, Refused};
pub use listing::{Bounds, RowBounds, rows};

/// A buffer of this length has room for every listing.
pub const LISTING_MAX: usize = 1472;

/// Times are in ticks, and a tick is one sixteenth of a millisecond.
pub const TICKS_PER_MS: u32 = 16;

unsafe extern "C" {
    /// `check_lineup(input: &[u8], output: &mut [u8]) -> usize` of the Rattle crate
    /// `lineup_check_c`: a slice crosses as pointer and length.
    fn check_lineup(
        input: *const u8,
        input_len: usize,
        output: *mut u8,
        output_len: usize,
    ) -> usize;
}

/// The core's call itself: the listing, or the line that says why the line-up is refused, now stands
/// at the front of `out`, and the answer is its length. It is 0 where that does not fit.
#[inline]
pub fn write_listing(lineup: &[u8], out: &mut [u8]) -> usize {
    // SAFETY: both pairs of pointer and length come from live slices, and `out` is borrowed
    // mutably, so they do not overlap. The core is proved to stay within them, and keeps neither.
    unsafe { check_lineup(lineup.as_ptr(), lineup.len(), out.as_mut_ptr(), out.len()) }
}

/// Checks a line-up: `Ok` says that each bound of every row exists and is at most its deadline.
///
/// The answer is the listing of these bounds, which now stands at the front of `out`: a line for
/// each row, which [`rows`] takes apart. Where the line-up is refused, the front of `out` holds the
/// line that says so. The rest of `out` is as it was.
///
/// # Errors
///
/// - [`CheckError::Refused`] says why the line-up is refused, and where.
/// - [`CheckError::TooShort`]: the listing does not fit into `out`, which is unchanged. It never
///   comes with [`LISTING_MAX`] bytes or more.
/// - [`CheckError::Mismatch`]: the answer is no listing at all, which the core is proved never to
///   give.
pub fn check<'a>(lineup: &[u8], out: &'a mut [u8]) -> Result<&'a str, CheckError> {
    let length = write_listing(lineup, out);
    if length == 0 {
        return Err(CheckError::TooShort);
    }
    let listing = out.get(..length).ok_or(CheckError::Mismatch)?;
    let listing = str::from_utf8(listing).map_err(|_| CheckError::Mismatch)?;
    match listing.strip_prefix("refused ") {
        None => Ok(listing),
        Some(fault) => Err(Refused::parse(fault).map_or(CheckError::Mismatch, CheckError::Refused)),
    }
}
