use crate::answer::{same, unless_refused};
use crate::raw;
use crate::{Refusal, Refused, Span};

/// A parameter of a media type.
#[derive(Clone, Copy, Debug, PartialEq, Eq, Hash)]
pub struct Parameter {
    /// The name before the `=`.
    pub attribute: Span,
    /// Without its quotes where it is quoted; pairs as sent.
    pub value: Span,
    /// Whether the value stands in quotes.
    pub quoted: bool,
}

impl Parameter {
    /// The name, in the value that was read.
    ///
    /// ```
    /// let value = b"text/html;charset=utf-8";
    /// let media = quizotepec::media_read(value).unwrap();
    /// assert_eq!(media.parameters()[0].attribute_in(value), Some(&b"charset"[..]));
    /// ```
    pub fn attribute_in<'a>(&self, value: &'a [u8]) -> Option<&'a [u8]> {
        self.attribute.of(value)
    }

    /// The parameter's value without its quotes, pairs as sent, in the value that was read.
    ///
    /// ```
    /// let value = b"text/html;charset=\"utf-8\"";
    /// let media = quizotepec::media_read(value).unwrap();
    /// assert_eq!(media.parameters()[0].value_in(value), Some(&b"utf-8"[..]));
    /// ```
    pub fn value_in<'a>(&self, value: &'a [u8]) -> Option<&'a [u8]> {
        self.value.of(value)
    }
}

/// A media type.
#[derive(Clone, Copy, Debug, PartialEq, Eq, Hash)]
pub struct MediaType {
    /// The type, which stands before the `/`.
    pub main: Span,
    /// What stands behind it.
    pub subtype: Span,
    count: usize,
    table: [Parameter; raw::PARAMETERS],
}

impl MediaType {
    /// The parameters in the order sent, at most 16.
    ///
    /// ```
    /// let media = quizotepec::media_read(b"a/b;x=1;y=2").unwrap();
    /// assert_eq!(media.parameters().len(), 2);
    /// ```
    pub fn parameters(&self) -> &[Parameter] {
        &self.table[..self.count]
    }

    /// The type, in the value that was read.
    ///
    /// ```
    /// let media = quizotepec::media_read(b"text/html").unwrap();
    /// assert_eq!(media.main_in(b"text/html"), Some(&b"text"[..]));
    /// ```
    pub fn main_in<'a>(&self, value: &'a [u8]) -> Option<&'a [u8]> {
        self.main.of(value)
    }

    /// The subtype, in the value that was read.
    ///
    /// ```
    /// let media = quizotepec::media_read(b"text/html").unwrap();
    /// assert_eq!(media.subtype_in(b"text/html"), Some(&b"html"[..]));
    /// ```
    pub fn subtype_in<'a>(&self, value: &'a [u8]) -> Option<&'a [u8]> {
        self.subtype.of(value)
    }
}

/// The charset of a media type.
#[derive(Clone, Copy, Debug, PartialEq, Eq, Hash)]
pub enum Charset {
    /// The value of the parameter `charset`.
    Stated {
        /// As in [`Parameter`].
        value: Span,
        /// Whether the value stands in quotes.
        quoted: bool,
    },
    /// ISO-8859-1, for type `text` without that parameter: by [`media_charset_assuming_iso_8859_1`] alone.
    Latin1,
    /// None is stated.
    NotStated,
}

impl Charset {
    /// The charset's name, if there is one: pairs as sent in the value that was read, or `ISO-8859-1`.
    ///
    /// ```
    /// use quizotepec::{media_charset, media_charset_assuming_iso_8859_1};
    /// let value = b"text/html;charset=\"utf-8\"";
    /// assert_eq!(media_charset(value).unwrap().name_in(value), Some(&b"utf-8"[..]));
    /// let value = b"text/html";
    /// assert_eq!(media_charset(value).unwrap().name_in(value), None);
    /// let assumed = media_charset_assuming_iso_8859_1(value).unwrap();
    /// assert_eq!(assumed.name_in(value), Some(&b"ISO-8859-1"[..]));
    /// ```
    pub fn name_in<'a>(&self, value: &'a [u8]) -> Option<&'a [u8]> {
        match self {
            Charset::Stated { value: name, .. } => name.of(value),
            Charset::Latin1 => Some(b"ISO-8859-1"),
            Charset::NotStated => None,
        }
    }
}

fn parameter(p: raw::QzParameter) -> Parameter {
    Parameter {
        attribute: Span { start: p.start, length: p.length },
        value: Span { start: p.value_start, length: p.value_length },
        quoted: p.quoted,
    }
}

/// Reads a media type: type `/` subtype, then parameters with blanks around their `;` only.
///
/// ```
/// use quizotepec::{media_read, Refusal};
/// let text = b"text/html; charset=\"utf-8\"";
/// let media = media_read(text).unwrap();
/// assert_eq!(media.main.of(text), Some(&b"text"[..]));
/// assert_eq!(media.subtype.of(text), Some(&b"html"[..]));
/// let [charset] = media.parameters() else { panic!("one parameter") };
/// assert_eq!(charset.attribute.of(text), Some(&b"charset"[..]));
/// assert_eq!(charset.value.of(text), Some(&b"utf-8"[..]));
/// assert!(charset.quoted);
/// // A repeated attribute is refused at the `=` after the second.
/// assert_eq!(media_read(b"a/b;x=1;X=2"), Err(Refusal::RepeatedAttribute { place: 9 }));
/// ```
pub fn media_read(value: &[u8]) -> Result<MediaType, Refusal> {
    // SAFETY: the pointer is valid for reads of the length.
    let m = unsafe { raw::qz_media_read(value.as_ptr(), value.len()) };
    let media = MediaType {
        main: Span { start: m.type_start, length: m.type_length },
        subtype: Span { start: m.subtype_start, length: m.subtype_length },
        count: m.count,
        table: m.parameters.map(parameter),
    };
    unless_refused(m.number, m.place, media)
}

/// Reads first one media type, then the other, and says whether they are equal: type, subtype and the set of
/// parameters agree.
///
/// ```
/// let html = b"text/html;charset=\"utf-8\"";
/// assert_eq!(quizotepec::media_equal(html, b"TEXT/HTML ; Charset=UTF-8"), Ok(true));
/// assert_eq!(quizotepec::media_equal(html, b"text/html"), Ok(false));
/// ```
pub fn media_equal(first: &[u8], second: &[u8]) -> Result<bool, Refused> {
    // SAFETY: both pointers are valid for reads of their lengths.
    same(unsafe { raw::qz_media_equal(first.as_ptr(), first.len(), second.as_ptr(), second.len()) })
}

fn charset(c: raw::QzCharset) -> Result<Charset, Refusal> {
    let charset = match c.kind {
        raw::NO_CHARSET => Charset::NotStated,
        raw::STATED_CHARSET => {
            Charset::Stated { value: Span { start: c.start, length: c.length }, quoted: c.quoted }
        }
        _ => Charset::Latin1,
    };
    unless_refused(c.number, c.place, charset)
}

/// Reads a media type and gives its effective charset: the value of its parameter `charset`, or none without it, for
/// every type. It is never [`Charset::Latin1`].
///
/// ```
/// use quizotepec::{media_charset, Charset, Span};
/// assert_eq!(media_charset(b"text/html"), Ok(Charset::NotStated));
/// let value = Span { start: 12, length: 5 };
/// assert_eq!(media_charset(b"a/b;charset=utf-8"), Ok(Charset::Stated { value, quoted: false }));
/// ```
pub fn media_charset(value: &[u8]) -> Result<Charset, Refusal> {
    // SAFETY: the pointer is valid for reads of the length.
    charset(unsafe { raw::qz_media_charset(value.as_ptr(), value.len()) })
}

/// As [`media_charset`], but type `text` without the parameter has ISO-8859-1: the default of RFC 2616 3.7.1, which
/// RFC 7231 dropped. For callers that rely on it.
///
/// ```
/// use quizotepec::{media_charset_assuming_iso_8859_1, Charset};
/// assert_eq!(media_charset_assuming_iso_8859_1(b"TEXT/html"), Ok(Charset::Latin1));
/// assert_eq!(media_charset_assuming_iso_8859_1(b"image/gif"), Ok(Charset::NotStated));
/// ```
pub fn media_charset_assuming_iso_8859_1(value: &[u8]) -> Result<Charset, Refusal> {
    // SAFETY: the pointer is valid for reads of the length.
    charset(unsafe { raw::qz_media_charset_assuming_iso_8859_1(value.as_ptr(), value.len()) })
}
