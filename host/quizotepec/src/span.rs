use crate::raw;

/// Where a part stands in the bytes that were read.
#[derive(Clone, Copy, Debug, PartialEq, Eq, Hash)]
pub struct Span {
    /// Its first byte, counted from 0.
    pub start: usize,
    /// How many bytes it has.
    pub length: usize,
}

impl Span {
    /// The part's bytes in the value that was read; none where that is too short, and so another one.
    ///
    /// ```
    /// let span = quizotepec::Span { start: 5, length: 4 };
    /// assert_eq!(span.of(b"text/html"), Some(&b"html"[..]));
    /// assert_eq!(span.of(b"text/css"), None);
    /// ```
    pub fn of(self, value: &[u8]) -> Option<&[u8]> {
        value.get(self.start..self.start.checked_add(self.length)?)
    }

    pub(crate) fn present(p: raw::QzPart) -> Option<Span> {
        p.present.then_some(Span { start: p.start, length: p.length })
    }
}
