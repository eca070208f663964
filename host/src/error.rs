//! Why a check gave no listing of bounds.

use std::error::Error;
use std::fmt;

/// Why [`check`](crate::check) gave no listing of bounds.
#[derive(Debug, Clone, Copy, PartialEq, Eq)]
pub enum CheckError {
    /// The line-up is refused.
    Refused(Refused),
    /// The listing does not fit into the output buffer. [`LISTING_MAX`](crate::LISTING_MAX) bytes
    /// are always enough.
    TooShort,
    /// The answer is no listing: the library that was linked is not the one this crate declares.
    Mismatch,
}

/// A fault of a line-up. It displays as a sentence for a person.
#[derive(Debug, Clone, Copy, PartialEq, Eq, Hash)]
pub struct Refused {
    /// The refusal's number: 1 to 8 from the reader, 10 to 12 from the judge.
    pub number: u8,
    /// The part of the core that refused.
    pub layer: Layer,
    /// The reader's place is the offset of the record at fault, in bytes; the judge's is the row.
    pub place: u64,
}

/// A part of the core that can refuse a line-up.
#[derive(Debug, Clone, Copy, PartialEq, Eq, Hash)]
pub enum Layer {
    /// The reader: the bytes are no line-up.
    Reader,
    /// The judge: some job can miss its deadline.
    Judge,
}

impl Refused {
    /// What is wrong, in words.
    pub fn reason(&self) -> &'static str {
        match self.number {
            1 => "the kind of the record is 4 to 7, which no record has",
            2 => "the input ends inside the record, or before an end record",
            3 => "a filling bit is not zero",
            4 => {
                "a label is empty, has a byte outside 20 to 7E, or stands not directly behind a row"
            }
            5 => "the row's numbers break the limits 1 ≤ C ≤ L ≤ D ≤ T ≤ 262143",
            6 => "it is the 33rd row",
            7 => "the count of the end record differs from the rows read, or there are none",
            8 => "bytes follow the end record",
            10 => "the normal bound does not exist or passes the deadline",
            11 => "the mixed bound does not exist or passes the deadline",
            12 => "the long bound does not exist or passes the deadline",
            _ => "a refusal that a check does not give",
        }
    }

    /// Reads number, layer and place as the listing of a refused line-up has them behind its first
    /// word.
    pub(crate) fn parse(fields: &str) -> Option<Self> {
        let mut words = fields.strip_suffix('\n')?.split(' ');
        let refused = Refused {
            number: words.next()?.parse().ok()?,
            layer: Layer::parse(words.next()?)?,
            place: words.next()?.parse().ok()?,
        };
        words.next().is_none().then_some(refused)
    }
}

impl Layer {
    fn parse(word: &str) -> Option<Self> {
        match word {
            "reader" => Some(Layer::Reader),
            "judge" => Some(Layer::Judge),
            _ => None,
        }
    }
}

impl fmt::Display for Layer {
    fn fmt(&self, f: &mut fmt::Formatter<'_>) -> fmt::Result {
        f.pad(match self {
            Layer::Reader => "reader",
            Layer::Judge => "judge",
        })
    }
}

impl fmt::Display for Refused {
    fn fmt(&self, f: &mut fmt::Formatter<'_>) -> fmt::Result {
        let Refused { number, layer, place } = self;
        let unit = match layer {
            Layer::Reader => "byte",
            Layer::Judge => "row",
        };
        write!(f, "refusal {number} by the {layer} at {unit} {place}: {}", self.reason())
    }
}

impl fmt::Display for CheckError {
    fn fmt(&self, f: &mut fmt::Formatter<'_>) -> fmt::Result {
        match self {
            CheckError::Refused(refused) => refused.fmt(f),
            CheckError::TooShort => f.write_str("the output buffer is shorter than the listing"),
            CheckError::Mismatch => f.write_str("the linked core does not answer with a listing"),
        }
    }
}

impl Error for CheckError {}
impl Error for Refused {}

#[cfg(test)]
mod tests {
    use super::*;

    #[test]
    fn a_refused_line_is_taken_apart() {
        let judged = Refused { number: 12, layer: Layer::Judge, place: 1 };
        assert_eq!(Refused::parse("12 judge 1\n"), Some(judged));
        let read = Refused { number: 8, layer: Layer::Reader, place: u64::MAX };
        assert_eq!(Refused::parse("8 reader 18446744073709551615\n"), Some(read));
    }

    #[test]
    fn what_is_no_refused_line_is_none() {
        for line in [
            "",
            "\n",
            "12 judge 1",
            "12 judge\n",
            "12 judge 1 1\n",
            "12 judge  1\n",
            "12 writer 1\n",
            "256 judge 1\n",
            "-1 judge 1\n",
            "12 judge 18446744073709551616\n",
        ] {
            assert_eq!(Refused::parse(line), None, "{line:?}");
        }
    }

    #[test]
    fn errors_are_told_in_words() {
        let judged = CheckError::Refused(Refused { number: 10, layer: Layer::Judge, place: 3 });
        assert_eq!(
            judged.to_string(),
            "refusal 10 by the judge at row 3: the normal bound does not exist or passes the deadline"
        );
        let read = CheckError::Refused(Refused { number: 3, layer: Layer::Reader, place: 18 });
        assert_eq!(
            read.to_string(),
            "refusal 3 by the reader at byte 18: a filling bit is not zero"
        );
        assert_eq!(
            CheckError::TooShort.to_string(),
            "the output buffer is shorter than the listing"
        );
    }
}
