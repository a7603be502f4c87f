use crate::answer::{same, unless_refused};
use crate::raw;
use crate::{Refusal, Refused, Span};

/// An entity tag.
#[derive(Clone, Copy, Debug, PartialEq, Eq, Hash)]
pub struct EntityTag {
    /// Whether it has `W/`.
    pub weak: bool,
    /// The quoted bytes, without the quotes; pairs as sent.
    pub opaque: Span,
}

impl EntityTag {
    /// The quoted bytes, in the value that was read.
    ///
    /// ```
    /// let value = b"W/\"xyzzy\"";
    /// let tag = quizotepec::etag_read(value).unwrap();
    /// assert_eq!(tag.opaque_in(value), Some(&b"xyzzy"[..]));
    /// ```
    pub fn opaque_in<'a>(&self, value: &'a [u8]) -> Option<&'a [u8]> {
        self.opaque.of(value)
    }
}

/// Reads an entity tag: optional `W/` in either case, then a quoted string.
///
/// ```
/// use quizotepec::Span;
/// let tag = quizotepec::etag_read(b"W/\"xyzzy\"").unwrap();
/// assert_eq!((tag.weak, tag.opaque), (true, Span { start: 3, length: 5 }));
/// ```
#[inline]
pub fn etag_read(value: &[u8]) -> Result<EntityTag, Refusal> {
    // SAFETY: the pointer is valid for reads of the length.
    let t = unsafe { raw::qz_etag_read(value.as_ptr(), value.len()) };
    let opaque = Span { start: t.start, length: t.length };
    unless_refused(t.number, t.place, EntityTag { weak: t.weak, opaque })
}

/// Reads first one entity tag, then the other; they match where neither is weak and the quoted bytes are the same.
///
/// ```
/// assert_eq!(quizotepec::etag_strong_match(b"\"a\"", b"\"a\""), Ok(true));
/// assert_eq!(quizotepec::etag_strong_match(b"W/\"a\"", b"\"a\""), Ok(false));
/// ```
#[inline]
pub fn etag_strong_match(first: &[u8], second: &[u8]) -> Result<bool, Refused> {
    // SAFETY: both pointers are valid for reads of their lengths.
    same(unsafe { raw::qz_etag_strong_match(first.as_ptr(), first.len(), second.as_ptr(), second.len()) })
}

/// Reads first one entity tag, then the other; they match where the quoted bytes are the same.
///
/// ```
/// assert_eq!(quizotepec::etag_weak_match(b"W/\"a\"", b"\"a\""), Ok(true));
/// ```
#[inline]
pub fn etag_weak_match(first: &[u8], second: &[u8]) -> Result<bool, Refused> {
    // SAFETY: both pointers are valid for reads of their lengths.
    same(unsafe { raw::qz_etag_weak_match(first.as_ptr(), first.len(), second.as_ptr(), second.len()) })
}
