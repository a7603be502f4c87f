//! Header values read in one pass, media types compared and URLs normalized, for speed: the baseline of the
//! benchmarks.

pub use crate::plain_media::{media, media_equal, MediaTable};
pub use crate::plain_url::{url, url_normalize};

use crate::delta::{Seconds, SECONDS_CAP, SECONDS_LIMIT};
use crate::etag::EntityTag;
use crate::number::{MALFORMED, TOO_MANY_PARAMETERS, VALUE_TOO_LONG};
use crate::plain_cursor::Cursor;
use crate::ranges::{Range, NUMBER_LIMIT, RANGE_LIMIT};
use crate::rules::is_blank;
use crate::version::{self, Version};
use crate::{Refusal, HEADER_LIMIT, OUT_OF_RANGE};

/// Its answers are those of `delta::read`.
pub fn delta(input: &[u8]) -> Result<Seconds, Refusal> {
    if input.len() > HEADER_LIMIT {
        return Err(Refusal::new(VALUE_TOO_LONG, HEADER_LIMIT));
    }
    if input.is_empty() {
        return Err(Refusal::new(MALFORMED, 0));
    }
    let mut value = 0;
    for (place, byte) in input.iter().enumerate() {
        if !byte.is_ascii_digit() {
            return Err(Refusal::new(MALFORMED, place));
        }
        // The cap is just above the limit: what has reached it stays there.
        value = (value * 10 + u64::from(byte - b'0')).min(SECONDS_CAP);
    }
    Ok(Seconds { value: value as u32, capped: value > SECONDS_LIMIT })
}

const VERSION_START: &[u8] = b"HTTP/";

/// One or more digits of a version.
#[inline]
fn version_number(value: &mut Cursor) -> Result<u16, Refusal> {
    let start = value.at;
    let number = value.number(version::NUMBER_LIMIT)?;
    if value.at == start {
        return Err(value.malformed());
    }
    Ok(number as u16)
}

/// Its answers are those of `version::read`.
pub fn version(input: &[u8]) -> Result<Version, Refusal> {
    let mut value = Cursor::new(input)?;
    value.expect_start(VERSION_START)?;
    let major = version_number(&mut value)?;
    value.expect(b'.')?;
    let minor = version_number(&mut value)?;
    value.expect_end()?;
    Ok(Version { major, minor })
}

/// Its answers are those of `etag::read`.
pub fn etag(input: &[u8]) -> Result<EntityTag, Refusal> {
    let mut value = Cursor::new(input)?;
    let weak = matches!(value.peek(), Some(b'W' | b'w'));
    if weak {
        value.at += 1;
        value.expect(b'/')?;
    }
    value.expect(b'"')?;
    let opaque = value.quoted_rest()?;
    value.expect_end()?;
    Ok(EntityTag { weak, opaque })
}

/// What is left of a set of ranges, in the order sent; none is "unsatisfiable". Unused entries are zero.
#[derive(Clone, Copy, Debug, Default, PartialEq, Eq, Hash)]
pub struct RangeTable {
    pub ranges: [Range; RANGE_LIMIT],
    pub count: usize,
}

impl RangeTable {
    pub fn left(&self) -> &[Range] {
        &self.ranges[..self.count]
    }

    #[inline]
    fn push(&mut self, range: Range) {
        self.ranges[self.count] = range;
        self.count += 1;
    }
}

const UNIT: &[u8] = b"bytes=";

/// Reads the elements of a set of ranges.
struct Elements<'a> {
    input: &'a [u8],
    at: usize,
    entity_length: u64,
}

impl Elements<'_> {
    #[inline]
    fn peek(&self) -> Option<u8> {
        self.input.get(self.at).copied()
    }

    #[cold]
    fn malformed(&self) -> Refusal {
        Refusal::new(MALFORMED, self.at)
    }

    #[inline]
    fn blanks(&mut self) {
        while self.peek().is_some_and(is_blank) {
            self.at += 1;
        }
    }

    /// The number that stands here, capped, if a digit does.
    #[inline]
    fn number(&mut self) -> Option<u64> {
        let start = self.at;
        let mut value = 0_u64;
        while let Some(byte @ b'0'..=b'9') = self.peek() {
            value = value.saturating_mul(10).saturating_add(u64::from(byte - b'0'));
            self.at += 1;
        }
        (self.at > start).then_some(value.min(NUMBER_LIMIT))
    }

    /// The element that stands here, resolved; none if it is empty.
    #[inline]
    fn element(&mut self) -> Result<Option<Range>, Refusal> {
        let end = self.entity_length;
        let first = self.number();
        if self.peek() != Some(b'-') {
            return Err(self.malformed());
        }
        self.at += 1;
        match (first, self.number()) {
            (None, None) => Err(self.malformed()),
            (Some(first), Some(last)) if last < first => Err(Refusal::new(MALFORMED, self.at - 1)),
            (Some(first), _) if first >= end => Ok(None),
            (Some(first), last) => {
                Ok(Some(Range { first, last: last.map_or(end - 1, |last| last.min(end - 1)) }))
            }
            (None, Some(suffix)) if suffix == 0 || end == 0 => Ok(None),
            (None, Some(suffix)) => Ok(Some(Range { first: end.saturating_sub(suffix), last: end - 1 })),
        }
    }

    /// Whether a comma follows, with the blanks around it; if none does, the value ends here.
    #[inline]
    fn comma(&mut self) -> Result<bool, Refusal> {
        if self.at == self.input.len() {
            return Ok(false);
        }
        self.blanks();
        if self.peek() != Some(b',') {
            return Err(self.malformed());
        }
        self.at += 1;
        self.blanks();
        Ok(true)
    }

    /// Why nothing may stand here, behind the comma of the last element allowed.
    #[cold]
    fn one_too_many(&self) -> Refusal {
        match self.peek() {
            Some(b'-' | b'0'..=b'9') => Refusal::new(TOO_MANY_PARAMETERS, self.at),
            _ => self.malformed(),
        }
    }
}

/// Its answers are those of `ranges::read`.
pub fn ranges(input: &[u8], entity_length: u64) -> Result<RangeTable, Refusal> {
    if entity_length > NUMBER_LIMIT {
        return Err(OUT_OF_RANGE);
    }
    let mut value = Cursor::new(input)?;
    value.expect_start(UNIT)?;
    let mut elements = Elements { input, at: value.at, entity_length };
    let mut table = RangeTable::default();
    for _ in 0..RANGE_LIMIT {
        if let Some(range) = elements.element()? {
            table.push(range);
        }
        if !elements.comma()? {
            return Ok(table);
        }
    }
    Err(elements.one_too_many())
}
