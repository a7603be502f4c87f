use crate::answer::{same, unless_refused};
use crate::raw;
use crate::{Refusal, Refused, Span};

/// A language tag.
#[derive(Clone, Copy, Debug, PartialEq, Eq, Hash)]
pub struct LanguageTag {
    /// How many parts it has.
    pub parts: usize,
    /// How many letters the first part has.
    pub primary: usize,
}

impl LanguageTag {
    /// The first part, in the value that was read.
    ///
    /// ```
    /// let value = b"en-cockney";
    /// let tag = quizotepec::language_read(value).unwrap();
    /// assert_eq!(tag.primary_in(value), Some(&b"en"[..]));
    /// ```
    pub fn primary_in<'a>(&self, value: &'a [u8]) -> Option<&'a [u8]> {
        Span { start: 0, length: self.primary }.of(value)
    }
}

/// Reads a language tag: parts of 1 to 8 letters joined by `-`.
///
/// ```
/// let tag = quizotepec::language_read(b"en-cockney").unwrap();
/// assert_eq!((tag.parts, tag.primary), (2, 2));
/// ```
pub fn language_read(value: &[u8]) -> Result<LanguageTag, Refusal> {
    // SAFETY: the pointer is valid for reads of the length.
    let t = unsafe { raw::qz_language_read(value.as_ptr(), value.len()) };
    unless_refused(t.number, t.place, LanguageTag { parts: t.parts, primary: t.primary })
}

/// Reads first one language tag, then the other, and says whether they are equal, ignoring case.
///
/// ```
/// assert_eq!(quizotepec::language_equal(b"en-US", b"EN-us"), Ok(true));
/// let refused = quizotepec::language_equal(b"en", b"en-").unwrap_err();
/// assert_eq!(refused.which, quizotepec::Which::Second);
/// ```
pub fn language_equal(first: &[u8], second: &[u8]) -> Result<bool, Refused> {
    // SAFETY: both pointers are valid for reads of their lengths.
    same(unsafe { raw::qz_language_equal(first.as_ptr(), first.len(), second.as_ptr(), second.len()) })
}
