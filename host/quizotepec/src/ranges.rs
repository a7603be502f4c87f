use crate::answer::{unless_refused, written};
use crate::raw;
use crate::Refusal;
use std::ops::RangeInclusive;

/// A byte range of an entity.
///
/// ```
/// let range = quizotepec::Range { first: 7, last: 11 };
/// assert_eq!(range.of(b"Hello, world!"), Some(&b"world"[..]));
/// ```
#[derive(Clone, Copy, Debug, PartialEq, Eq, Hash)]
pub struct Range {
    /// The position of its first byte, counted from 0.
    pub first: u64,
    /// The position of its last byte. In a range that was read it is not below `first`, and inside the entity.
    pub last: u64,
}

impl Range {
    /// How many bytes it has, as a `Content-Length` says; 0 where the last is below the first.
    ///
    /// ```
    /// assert_eq!(quizotepec::Range { first: 500, last: 999 }.length(), 500);
    /// ```
    pub fn length(self) -> u64 {
        // Only 0 to `u64::MAX` has one more than a `u64` holds; no entity has so many.
        self.last.checked_sub(self.first).map_or(0, |behind_first| behind_first.saturating_add(1))
    }

    /// The range's bytes in the entity; none where that ends before the last, and so is another one, or where the
    /// last is below the first.
    ///
    /// ```
    /// let range = quizotepec::Range { first: 2, last: 4 };
    /// assert_eq!(range.of(b"012345"), Some(&b"234"[..]));
    /// assert_eq!(range.of(b"0123"), None);
    /// ```
    pub fn of(self, entity: &[u8]) -> Option<&[u8]> {
        let (first, last) = (usize::try_from(self.first).ok()?, usize::try_from(self.last).ok()?);
        if first > last {
            return None;
        }
        entity.get(first..=last)
    }
}

/// The same positions.
///
/// ```
/// use std::ops::RangeInclusive;
/// let range = quizotepec::Range { first: 0, last: 499 };
/// assert_eq!(RangeInclusive::from(range), 0..=499);
/// ```
impl From<Range> for RangeInclusive<u64> {
    fn from(range: Range) -> RangeInclusive<u64> {
        range.first..=range.last
    }
}

/// The ranges that a set comes to in an entity: at least one.
#[derive(Clone, Copy, Debug, PartialEq, Eq, Hash)]
pub struct RangeSet {
    count: usize,
    table: [Range; raw::RANGES],
}

impl RangeSet {
    /// The ranges in the order sent, 1 to 16. They may overlap.
    ///
    /// ```
    /// use quizotepec::{ranges_read, Range, Ranges};
    /// let Ok(Ranges::Satisfiable(set)) = ranges_read(b"bytes=-1,0-0", 10_000) else { panic!("two ranges") };
    /// assert_eq!(set.ranges(), [Range { first: 9_999, last: 9_999 }, Range { first: 0, last: 0 }]);
    /// ```
    pub fn ranges(&self) -> &[Range] {
        &self.table[..self.count]
    }
}

/// What a well-formed set of byte ranges comes to in an entity.
///
/// ```
/// use quizotepec::{ranges_read, Ranges};
/// let status = |value| match ranges_read(value, 10_000) {
///     Ok(Ranges::Satisfiable(_)) => 206,
///     Ok(Ranges::Unsatisfiable) => 416,
///     Err(_) => 200, // as without the header: the whole entity
/// };
/// assert_eq!([status(b"bytes=-500"), status(b"bytes=10000-"), status(b"bytes=5-3")], [206, 416, 200]);
/// ```
#[derive(Clone, Copy, Debug, PartialEq, Eq, Hash)]
#[allow(clippy::large_enum_variant)] // it comes by value, as every answer: nothing is on the heap
pub enum Ranges {
    /// These ranges are left: a server answers 206 (Partial Content).
    Satisfiable(RangeSet),
    /// No range is left: a server answers 416 (Requested Range Not Satisfiable).
    Unsatisfiable,
}

fn range(r: raw::QzRange) -> Range {
    Range { first: r.first, last: r.last }
}

/// Reads the value of a `Range` header, `bytes=` and at most 16 elements with blanks around their commas only, and
/// resolves it against an entity of so many bytes, at most 2^63 - 1. A last beyond the end is cut, a suffix longer
/// than the entity is all of it, and an empty range is left out.
///
/// ```
/// use quizotepec::{ranges_read, Range, Ranges, Refusal};
/// let value = b"bytes=0-499, -500, 9900-20000, 10000-";
/// let Ok(Ranges::Satisfiable(set)) = ranges_read(value, 10_000) else { panic!("three ranges") };
/// let [first, suffix, cut] = set.ranges() else { panic!("three ranges") };
/// assert_eq!(*first, Range { first: 0, last: 499 });
/// assert_eq!(*suffix, Range { first: 9_500, last: 9_999 });
/// assert_eq!(*cut, Range { first: 9_900, last: 9_999 });
///
/// assert_eq!(ranges_read(b"bytes=20000-", 10_000), Ok(Ranges::Unsatisfiable));
/// // A last below its first is malformed at its last digit.
/// assert_eq!(ranges_read(b"bytes=5-3", 10_000), Err(Refusal::Malformed { place: 8 }));
/// ```
pub fn ranges_read(value: &[u8], entity_length: u64) -> Result<Ranges, Refusal> {
    // SAFETY: the pointer is valid for reads of the length.
    let r = unsafe { raw::qz_ranges_read(value.as_ptr(), value.len(), entity_length) };
    let ranges = if r.unsatisfiable {
        Ranges::Unsatisfiable
    } else {
        Ranges::Satisfiable(RangeSet { count: r.count, table: r.ranges.map(range) })
    };
    unless_refused(r.number, r.place, ranges)
}

/// Writes the `Content-Range` value of a range in an entity of so many bytes, at most 65 bytes, and gives its length.
/// The first is at most the last, the last below the entity's length, and that at most 2^63 - 1.
///
/// ```
/// use quizotepec::{content_range_write, Range, Refusal};
/// let mut out = [b'.'; 17];
/// let range = Range { first: 0, last: 499 };
/// assert_eq!(content_range_write(range, 1_234, &mut out), Ok(16));
/// assert_eq!(&out, b"bytes 0-499/1234.");
/// assert_eq!(content_range_write(range, 499, &mut out), Err(Refusal::OutOfRange { place: 0 }));
/// assert_eq!(content_range_write(range, 1_234, &mut out[..15]), Err(Refusal::OutputTooShort { place: 0 }));
/// ```
pub fn content_range_write(range: Range, entity_length: u64, out: &mut [u8]) -> Result<usize, Refusal> {
    let Range { first, last } = range;
    // SAFETY: the output is borrowed alone and valid for writes of its length.
    written(unsafe { raw::qz_content_range_write(first, last, entity_length, out.as_mut_ptr(), out.len()) })
}
