//! The lines of a listing.

/// The bounds of one row: how many ticks after its arrival a job of the row ends at the latest.
#[derive(Debug, Clone, Copy, PartialEq, Eq)]
pub struct RowBounds {
    /// The row's number, which is its priority: 0 is the first.
    pub row: u32,
    /// The bounds by the row's kind.
    pub bounds: Bounds,
}

/// Bounds in ticks, by the kind of the row.
#[derive(Debug, Clone, Copy, PartialEq, Eq)]
pub enum Bounds {
    /// A helper, whose jobs are all normal.
    Helper {
        /// The bound of a job if no abnormal job is admitted before it ends.
        normal: u32,
    },
    /// A track.
    Track {
        /// The bound of a job while every job is normal.
        normal: u32,
        /// The bound of a normal job, abnormal jobs of other rows included.
        mixed: u32,
        /// The bound of an abnormal job.
        long: u32,
    },
}

/// The rows of a listing that [`check`](crate::check) gave. Ends before the first line that is no
/// row's.
///
/// ```
/// use wigeongold::{Bounds, rows};
///
/// let mut rows = rows("0 T 2 2 4\n1 H 4\n");
/// assert_eq!(rows.next().map(|row| row.bounds), Some(Bounds::Track { normal: 2, mixed: 2, long: 4 }));
/// assert_eq!(rows.next().map(|row| row.bounds), Some(Bounds::Helper { normal: 4 }));
/// assert_eq!(rows.next(), None);
/// ```
pub fn rows(listing: &str) -> impl Iterator<Item = RowBounds> {
    listing.lines().map_while(parse_row)
}

/// Reads a line: the row's number, `T` or `H`, and its bounds.
fn parse_row(line: &str) -> Option<RowBounds> {
    let mut words = line.split(' ');
    let row = words.next()?.parse().ok()?;
    let kind = words.next()?;
    let mut bound = || words.next()?.parse().ok();
    let bounds = match kind {
        "T" => Bounds::Track { normal: bound()?, mixed: bound()?, long: bound()? },
        "H" => Bounds::Helper { normal: bound()? },
        _ => return None,
    };
    words.next().is_none().then_some(RowBounds { row, bounds })
}

#[cfg(test)]
mod tests {
    use super::*;

    #[test]
    fn a_listing_is_taken_apart() {
        let all: Vec<_> = rows("0 T 2 2 4\n1 H 4\n").collect();
        let track = RowBounds { row: 0, bounds: Bounds::Track { normal: 2, mixed: 2, long: 4 } };
        let helper = RowBounds { row: 1, bounds: Bounds::Helper { normal: 4 } };
        assert_eq!(all, [track, helper]);
    }

    #[test]
    fn what_is_no_row_ends_the_rows() {
        for listing in [
            "",
            "refused 2 reader 0\n",
            "0 T 2 2\n",
            "0 H 2 2\n",
            "0 X 2\n",
            "x H 2\n",
            "0 H x\n",
            "0  H 2\n",
        ] {
            assert_eq!(rows(listing).count(), 0, "{listing:?}");
        }
        assert_eq!(rows("0 H 1\n?\n1 H 2\n").count(), 1);
    }
}
