use crate::raw;
use std::error::Error;
use std::fmt::{Display, Formatter, Result};

/// Why bytes or arguments were refused, and at which place, counted from 0.
///
/// Each case has a number of the table of refusals, which is the same in C.
///
/// ```
/// use quizotepec::Refusal;
/// let refusal = quizotepec::version_read(b"HTP/1.1").unwrap_err();
/// assert_eq!(refusal, Refusal::Malformed { place: 2 });
/// assert_eq!((refusal.number(), refusal.place()), (1, 2));
/// assert_eq!(refusal.to_string(), "malformed, at 2 (refusal 1)");
/// ```
#[derive(Clone, Copy, Debug, PartialEq, Eq, Hash)]
#[non_exhaustive]
pub enum Refusal {
    /// Refusal 1: malformed.
    Malformed {
        /// The length of the longest beginning that some continuation, limits aside, makes well-formed; where a last
        /// byte position is below its first, its last digit.
        place: usize,
    },
    /// Refusal 2: a number above its limit.
    NumberAboveLimit {
        /// The digit that passes the limit.
        place: usize,
    },
    /// Refusal 3: no such date or time.
    NoSuchDate {
        /// Always 0.
        place: usize,
    },
    /// Refusal 4: the day name disagrees with the date.
    WrongDayName {
        /// Always 0.
        place: usize,
    },
    /// Refusal 5: a chunk line above 1,024 bytes.
    LineTooLong {
        /// The line's byte 1,025.
        place: usize,
    },
    /// Refusal 6: a trailer above 8,192 bytes.
    TrailerTooLong {
        /// The trailer's byte 8,193.
        place: usize,
    },
    /// Refusal 7: a body larger than the room, or, to be written, above 1,073,741,824 bytes.
    BodyTooLarge {
        /// The digit of a chunk size with which the body passes the room; 0 from the writer.
        place: usize,
    },
    /// Refusal 8: the lent output is too short.
    OutputTooShort {
        /// Always 0.
        place: usize,
    },
    /// Refusal 9: an argument outside its range.
    OutOfRange {
        /// Always 0.
        place: usize,
    },
    /// Refusal 10: more than 16 parameters or byte ranges.
    TooManyParameters {
        /// The first byte of the 17th.
        place: usize,
    },
    /// Refusal 11: an attribute repeated, letter case ignored.
    RepeatedAttribute {
        /// The `=` after the second.
        place: usize,
    },
    /// Refusal 12: a comment nested deeper than 8.
    CommentTooDeep {
        /// The ninth open `(`.
        place: usize,
    },
    /// Refusal 13: a header value, or the normal form of a URL, above 8,192 bytes.
    ValueTooLong {
        /// Always 8,192.
        place: usize,
    },
    /// Refusal 14: a framed body above 1,099,511,627,776 bytes.
    FramedTooLong {
        /// The byte after that many; always 1,099,511,627,776.
        place: usize,
    },
    /// Refusal 15: a trailer with `Transfer-Encoding`, `Content-Length` or `Trailer`, letter case ignored.
    ForbiddenField {
        /// The colon behind the name.
        place: usize,
    },
    /// A number that this crate does not know: the library that is linked is another version's.
    Unknown {
        /// The number, as the library gave it.
        number: u8,
        /// The place, as the library gave it.
        place: usize,
    },
}

impl Refusal {
    /// The refusal that has this number in the library. Kept out of line, so that an answer is one test away.
    #[cold]
    pub(crate) fn numbered(number: u8, place: usize) -> Refusal {
        match number {
            raw::MALFORMED => Refusal::Malformed { place },
            raw::NUMBER_ABOVE_LIMIT => Refusal::NumberAboveLimit { place },
            raw::NO_SUCH_DATE => Refusal::NoSuchDate { place },
            raw::WRONG_DAY_NAME => Refusal::WrongDayName { place },
            raw::LINE_TOO_LONG => Refusal::LineTooLong { place },
            raw::TRAILER_TOO_LONG => Refusal::TrailerTooLong { place },
            raw::BODY_TOO_LARGE => Refusal::BodyTooLarge { place },
            raw::OUTPUT_TOO_SHORT => Refusal::OutputTooShort { place },
            raw::OUT_OF_RANGE => Refusal::OutOfRange { place },
            raw::TOO_MANY_PARAMETERS => Refusal::TooManyParameters { place },
            raw::REPEATED_ATTRIBUTE => Refusal::RepeatedAttribute { place },
            raw::COMMENT_TOO_DEEP => Refusal::CommentTooDeep { place },
            raw::VALUE_TOO_LONG => Refusal::ValueTooLong { place },
            raw::FRAMED_TOO_LONG => Refusal::FramedTooLong { place },
            raw::FORBIDDEN_FIELD => Refusal::ForbiddenField { place },
            _ => Refusal::Unknown { number, place },
        }
    }

    /// The number in the table of refusals.
    ///
    /// ```
    /// assert_eq!(quizotepec::version_read(b"HTTP/65536.0").unwrap_err().number(), 2);
    /// ```
    pub fn number(self) -> u8 {
        match self {
            Refusal::Malformed { .. } => raw::MALFORMED,
            Refusal::NumberAboveLimit { .. } => raw::NUMBER_ABOVE_LIMIT,
            Refusal::NoSuchDate { .. } => raw::NO_SUCH_DATE,
            Refusal::WrongDayName { .. } => raw::WRONG_DAY_NAME,
            Refusal::LineTooLong { .. } => raw::LINE_TOO_LONG,
            Refusal::TrailerTooLong { .. } => raw::TRAILER_TOO_LONG,
            Refusal::BodyTooLarge { .. } => raw::BODY_TOO_LARGE,
            Refusal::OutputTooShort { .. } => raw::OUTPUT_TOO_SHORT,
            Refusal::OutOfRange { .. } => raw::OUT_OF_RANGE,
            Refusal::TooManyParameters { .. } => raw::TOO_MANY_PARAMETERS,
            Refusal::RepeatedAttribute { .. } => raw::REPEATED_ATTRIBUTE,
            Refusal::CommentTooDeep { .. } => raw::COMMENT_TOO_DEEP,
            Refusal::ValueTooLong { .. } => raw::VALUE_TOO_LONG,
            Refusal::FramedTooLong { .. } => raw::FRAMED_TOO_LONG,
            Refusal::ForbiddenField { .. } => raw::FORBIDDEN_FIELD,
            Refusal::Unknown { number, .. } => number,
        }
    }

    /// The place, counted from 0.
    ///
    /// ```
    /// assert_eq!(quizotepec::version_read(b"HTTP/65536.0").unwrap_err().place(), 9);
    /// ```
    pub fn place(self) -> usize {
        match self {
            Refusal::Malformed { place }
            | Refusal::NumberAboveLimit { place }
            | Refusal::NoSuchDate { place }
            | Refusal::WrongDayName { place }
            | Refusal::LineTooLong { place }
            | Refusal::TrailerTooLong { place }
            | Refusal::BodyTooLarge { place }
            | Refusal::OutputTooShort { place }
            | Refusal::OutOfRange { place }
            | Refusal::TooManyParameters { place }
            | Refusal::RepeatedAttribute { place }
            | Refusal::CommentTooDeep { place }
            | Refusal::ValueTooLong { place }
            | Refusal::FramedTooLong { place }
            | Refusal::ForbiddenField { place }
            | Refusal::Unknown { place, .. } => place,
        }
    }

    /// What the refusal says, in words.
    ///
    /// ```
    /// assert_eq!(quizotepec::version_read(b"HTTP/65536.0").unwrap_err().meaning(), "number above its limit");
    /// ```
    pub fn meaning(self) -> &'static str {
        match self {
            Refusal::Malformed { .. } => "malformed",
            Refusal::NumberAboveLimit { .. } => "number above its limit",
            Refusal::NoSuchDate { .. } => "no such date or time",
            Refusal::WrongDayName { .. } => "day name disagrees with the date",
            Refusal::LineTooLong { .. } => "chunk line above 1,024 bytes",
            Refusal::TrailerTooLong { .. } => "trailer above 8,192 bytes",
            Refusal::BodyTooLarge { .. } => "body too large",
            Refusal::OutputTooShort { .. } => "output too short",
            Refusal::OutOfRange { .. } => "argument outside its range",
            Refusal::TooManyParameters { .. } => "more than 16 parameters or byte ranges",
            Refusal::RepeatedAttribute { .. } => "attribute repeated",
            Refusal::CommentTooDeep { .. } => "comment nested deeper than 8",
            Refusal::ValueTooLong { .. } => "header value or normal form above 8,192 bytes",
            Refusal::FramedTooLong { .. } => "framed body above 1,099,511,627,776 bytes",
            Refusal::ForbiddenField { .. } => "field that a trailer must not hold",
            Refusal::Unknown { .. } => "refused",
        }
    }
}

impl Display for Refusal {
    fn fmt(&self, f: &mut Formatter<'_>) -> Result {
        write!(f, "{}, at {} (refusal {})", self.meaning(), self.place(), self.number())
    }
}

impl Error for Refusal {}

/// Which of two compared byte strings was refused.
#[derive(Clone, Copy, Debug, PartialEq, Eq, Hash)]
pub enum Which {
    /// The first, which is read first.
    First,
    /// The second; the first was well-formed.
    Second,
}

/// A comparison's refusal. The first input is read first.
///
/// ```
/// use quizotepec::{Refusal, Refused, Which};
/// let refused = quizotepec::url_equal(b"http://a/", b"http:/b/").unwrap_err();
/// assert_eq!(refused, Refused { which: Which::Second, refusal: Refusal::Malformed { place: 6 } });
/// assert_eq!(refused.to_string(), "the second: malformed, at 6 (refusal 1)");
/// ```
#[derive(Clone, Copy, Debug, PartialEq, Eq, Hash)]
pub struct Refused {
    /// The input that was refused.
    pub which: Which,
    /// Why, and at which place of that input.
    pub refusal: Refusal,
}

impl Display for Refused {
    fn fmt(&self, f: &mut Formatter<'_>) -> Result {
        let which = match self.which {
            Which::First => "first",
            Which::Second => "second",
        };
        write!(f, "the {which}: {}", self.refusal)
    }
}

impl Error for Refused {
    fn source(&self) -> Option<&(dyn Error + 'static)> {
        Some(&self.refusal)
    }
}

#[cfg(test)]
mod tests {
    use super::*;

    /// No number panics, and none is lost.
    #[test]
    fn every_number_stays_visible() {
        for number in 0..=u8::MAX {
            let refusal = Refusal::numbered(number, 7);
            assert_eq!((refusal.number(), refusal.place()), (number, 7));
            let known = (1..=15).contains(&number);
            assert_eq!(known, !matches!(refusal, Refusal::Unknown { .. }), "{number}");
            assert_eq!(known, refusal.meaning() != "refused", "{number}");
        }
        assert_eq!(Refusal::numbered(16, 3).to_string(), "refused, at 3 (refusal 16)");
    }
}
