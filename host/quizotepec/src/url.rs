use crate::answer::{same, unless_refused, written};
use crate::raw;
use crate::{Refusal, Refused, Span};
use std::borrow::Borrow;
use std::fmt;

/// The longest normal form.
const LONGEST_NORMAL: usize = 8_192;

/// An http URL.
#[derive(Clone, Copy, Debug, PartialEq, Eq, Hash)]
pub struct Url {
    /// Letters, digits, `-` and `.`, as sent.
    pub host: Span,
    /// 80 where it is empty or absent.
    pub port: u16,
    /// With its first `/`.
    pub path: Option<Span>,
    /// Without the `?`.
    pub query: Option<Span>,
}

impl Url {
    /// The host, in the value that was read.
    ///
    /// ```
    /// let text = b"http://abc.com/home?a";
    /// let url = quizotepec::url_read(text).unwrap();
    /// assert_eq!(url.host_in(text), Some(&b"abc.com"[..]));
    /// ```
    pub fn host_in<'a>(&self, value: &'a [u8]) -> Option<&'a [u8]> {
        self.host.of(value)
    }

    /// The path, if there is one, in the value that was read.
    ///
    /// ```
    /// let text = b"http://abc.com/home?a";
    /// let url = quizotepec::url_read(text).unwrap();
    /// assert_eq!(url.path_in(text), Some(&b"/home"[..]));
    /// ```
    pub fn path_in<'a>(&self, value: &'a [u8]) -> Option<&'a [u8]> {
        self.path?.of(value)
    }

    /// The query, if there is one, in the value that was read.
    ///
    /// ```
    /// let text = b"http://abc.com/home?a";
    /// let url = quizotepec::url_read(text).unwrap();
    /// assert_eq!(url.query_in(text), Some(&b"a"[..]));
    /// ```
    pub fn query_in<'a>(&self, value: &'a [u8]) -> Option<&'a [u8]> {
        self.query?.of(value)
    }
}

/// Reads an http URL.
///
/// ```
/// use quizotepec::{url_read, Refusal};
/// let text = b"http://abc.com/~smith/home.html?a";
/// let url = url_read(text).unwrap();
/// assert_eq!((url.host_in(text), url.port), (Some(&b"abc.com"[..]), 80));
/// assert_eq!(url.path_in(text), Some(&b"/~smith/home.html"[..]));
/// assert_eq!(url.query_in(text), Some(&b"a"[..]));
/// // A port above 65,535 is refused at the digit that passes it.
/// assert_eq!(url_read(b"http://a:65536/"), Err(Refusal::NumberAboveLimit { place: 13 }));
/// ```
#[inline]
pub fn url_read(value: &[u8]) -> Result<Url, Refusal> {
    // SAFETY: the pointer is valid for reads of the length.
    let u = unsafe { raw::qz_url_read(value.as_ptr(), value.len()) };
    let host = Span { start: u.host.start, length: u.host.length };
    let url = Url { host, port: u.port, path: Span::present(u.path), query: Span::present(u.query) };
    unless_refused(u.number, u.place, url)
}

/// Reads first one URL, then the other, and says whether they name the same page.
///
/// ```
/// let page = b"http://abc.com:80/~smith/home.html";
/// assert_eq!(quizotepec::url_equal(page, b"http://ABC.com:/%7esmith/home.html"), Ok(true));
/// assert_eq!(quizotepec::url_equal(b"http://a/%2F", b"http://a/%2f"), Ok(false));
/// ```
#[inline]
pub fn url_equal(first: &[u8], second: &[u8]) -> Result<bool, Refused> {
    // SAFETY: both pointers are valid for reads of their lengths.
    same(unsafe { raw::qz_url_equal(first.as_ptr(), first.len(), second.as_ptr(), second.len()) })
}

/// Writes the normal form of a URL and gives its length: scheme and host in lower case, no port 80, any other port
/// without leading zeros, `/` for an absent path, no escape of a letter, a digit or one of `- _ . ! ~ * ' ( )`. All else
/// stays as it is: any other escape, its letter case too, and `.` and `..` in a path. It is at most one byte longer than
/// the URL, by that `/`.
///
/// Two URLs that have normal forms are equal exactly where those have the same bytes.
///
/// ```
/// use quizotepec::{url_normalize, Refusal};
/// let mut out = [0; 64];
/// let length = url_normalize(b"HTTP://ABC.com:/%7Esmith/home.html", &mut out).unwrap();
/// assert_eq!(&out[..length], b"http://abc.com/~smith/home.html");
/// // A URL of 8,192 bytes without a path may be read, but a normal form of 8,193 bytes is refused.
/// let long = [b"http://".to_vec(), vec![b'a'; 8_185]].concat();
/// assert_eq!(url_normalize(&long, &mut [0; 8_193]), Err(Refusal::ValueTooLong { place: 8_192 }));
/// ```
pub fn url_normalize(value: &[u8], out: &mut [u8]) -> Result<usize, Refusal> {
    // SAFETY: the pointer is valid for reads of its length, and the output is borrowed alone and valid for writes of
    // its own.
    written(unsafe { raw::qz_url_normalize(value.as_ptr(), value.len(), out.as_mut_ptr(), out.len()) })
}

/// The normal form of a URL, in memory of its own: a key for maps. Equal URLs have one normal form, and different URLs
/// have different ones.
///
/// ```
/// use quizotepec::NormalUrl;
/// use std::collections::HashMap;
/// let mut cache = HashMap::new();
/// cache.insert(NormalUrl::try_from(&b"http://abc.com/~smith/"[..]).unwrap(), "a page");
/// let same = quizotepec::url_normalized(b"HTTP://ABC.com:80/%7Esmith/").unwrap();
/// assert_eq!((same.as_str(), cache.get(&same)), ("http://abc.com/~smith/", Some(&"a page")));
/// // By the bytes of a normal form that is at hand.
/// assert_eq!(cache.get(&b"http://abc.com/~smith/"[..]), Some(&"a page"));
/// ```
#[derive(Clone, PartialEq, Eq, Hash, PartialOrd, Ord)]
pub struct NormalUrl(Box<[u8]>);

impl NormalUrl {
    /// Its bytes, at most 8,192.
    pub fn as_bytes(&self) -> &[u8] {
        &self.0
    }

    /// The same as text: a URL that is read has no byte above 126.
    pub fn as_str(&self) -> &str {
        std::str::from_utf8(&self.0).unwrap_or_default()
    }
}

impl fmt::Debug for NormalUrl {
    fn fmt(&self, f: &mut fmt::Formatter<'_>) -> fmt::Result {
        f.debug_tuple("NormalUrl").field(&self.as_str()).finish()
    }
}

impl fmt::Display for NormalUrl {
    fn fmt(&self, f: &mut fmt::Formatter<'_>) -> fmt::Result {
        f.write_str(self.as_str())
    }
}

impl AsRef<[u8]> for NormalUrl {
    fn as_ref(&self) -> &[u8] {
        &self.0
    }
}

/// Lawful, since equality, order and hash are those of the bytes.
impl Borrow<[u8]> for NormalUrl {
    fn borrow(&self) -> &[u8] {
        &self.0
    }
}

impl TryFrom<&[u8]> for NormalUrl {
    type Error = Refusal;

    /// As [`url_normalized`].
    fn try_from(value: &[u8]) -> Result<Self, Refusal> {
        url_normalized(value)
    }
}

/// The normal form of a URL, as [`url_normalize`] writes it.
///
/// ```
/// use quizotepec::{url_normalized, Refusal};
/// assert_eq!(url_normalized(b"http://A:08080").unwrap().as_bytes(), b"http://a:8080/");
/// assert_eq!(url_normalized(b"http://a?x"), Err(Refusal::Malformed { place: 8 }));
/// ```
pub fn url_normalized(value: &[u8]) -> Result<NormalUrl, Refusal> {
    let mut bytes = vec![0; (value.len() + 1).min(LONGEST_NORMAL)];
    let length = url_normalize(value, &mut bytes)?;
    bytes.truncate(length);
    Ok(NormalUrl(bytes.into_boxed_slice()))
}
