//! The plain reader and normalizer of URLs, which share how a URL's parts are read.

use crate::number::{OUTPUT_TOO_SHORT, VALUE_TOO_LONG};
use crate::plain_classes::{is_in, HEX_VALUES, IN_HOST, IN_PATH, IN_QUERY, NO_DIGIT, UNRESERVED};
use crate::plain_cursor::Cursor;
use crate::url::{Url, PORT_LIMIT};
use crate::{Refusal, Span, HEADER_LIMIT};

const URL_START: &[u8] = b"http://";
const DEFAULT_PORT: u16 = 80;
/// `%` and two hex digits, of which the last two go if it is unneeded.
const ESCAPE_LENGTH: usize = 3;
const ESCAPE_EXCESS: usize = 2;

struct Port<'a> {
    value: u16,
    /// Without leading zeros.
    digits: &'a [u8],
}

/// Of a colon without digits, as without a colon.
const NO_PORT: Port = Port { value: DEFAULT_PORT, digits: &[] };

/// What stands before the path.
struct Server<'a> {
    host: &'a [u8],
    port: Port<'a>,
}

#[inline]
fn port<'a>(url: &mut Cursor<'a>) -> Result<Port<'a>, Refusal> {
    let start = url.at;
    while url.peek() == Some(b'0') {
        url.at += 1;
    }
    let behind_zeros = url.at;
    let value = url.number(PORT_LIMIT)? as u16;
    if url.at == start {
        return Ok(NO_PORT);
    }
    // Of zeros alone, the last one stays.
    let first = if value == 0 { behind_zeros - 1 } else { behind_zeros };
    Ok(Port { value, digits: &url.input[first..url.at] })
}

/// Reads up to the path; behind it is a `/` or the end.
#[inline]
fn server<'a>(url: &mut Cursor<'a>) -> Result<Server<'a>, Refusal> {
    url.expect_start(URL_START)?;
    let host = url.some(IN_HOST)?.of(url.input);
    let mut server = Server { host, port: NO_PORT };
    if url.peek() == Some(b':') {
        url.at += 1;
        server.port = port(url)?;
    }
    match url.peek() {
        None | Some(b'/') => Ok(server),
        Some(_) => Err(url.malformed()),
    }
}

#[inline]
fn hex_digit(url: &mut Cursor) -> Result<u8, Refusal> {
    match url.peek().map_or(NO_DIGIT, |byte| HEX_VALUES[usize::from(byte)]) {
        NO_DIGIT => Err(url.malformed()),
        value => {
            url.at += 1;
            Ok(value)
        }
    }
}

/// The bytes of the class and the escapes that stand here. Each escape's byte is noted with the place behind
/// the escape.
#[inline]
fn escaped_run(url: &mut Cursor, class: u8, mut note: impl FnMut(u8, usize)) -> Result<Span, Refusal> {
    let start = url.at;
    loop {
        url.run(class);
        if url.peek() != Some(b'%') {
            return Ok(Span { start, length: url.at - start });
        }
        url.at += 1;
        let byte = hex_digit(url)? << 4 | hex_digit(url)?;
        note(byte, url.at);
    }
}

/// Its answers are those of `url::read`.
pub fn url(input: &[u8]) -> Result<Url, Refusal> {
    let mut url = Cursor::new(input)?;
    let Server { host, port } = server(&mut url)?;
    let host = Span { start: URL_START.len(), length: host.len() };
    let (mut path, mut query) = (None, None);
    if url.peek() == Some(b'/') {
        path = Some(escaped_run(&mut url, IN_PATH, |_, _| {})?);
        if url.peek() == Some(b'?') {
            url.at += 1;
            query = Some(escaped_run(&mut url, IN_QUERY, |_, _| {})?);
        }
        url.expect_end()?;
    }
    Ok(Url { host, port: port.value, path, query })
}

/// The escapes of path and query that the normal form has not.
#[derive(Default)]
struct Unneeded {
    /// Where the first one stands; 0 without any.
    first: usize,
    count: usize,
}

/// The parts of a readable URL, as its normal form has them but for letter case and unneeded escapes.
struct NormalParts<'a> {
    host: &'a [u8],
    /// Without leading zeros; empty for 80.
    port: &'a [u8],
    /// Path and query.
    page: &'a [u8],
    unneeded: Unneeded,
}

/// Reads path and query, which reach to the end, as one run: a `?` ends the path and may stand in the query.
#[inline]
fn page(url: &mut Cursor) -> Result<Unneeded, Refusal> {
    let start = url.at;
    let mut unneeded = Unneeded::default();
    escaped_run(url, IN_QUERY, |byte, behind| {
        let is_unneeded = is_in(byte, UNRESERVED);
        if is_unneeded && unneeded.count == 0 {
            unneeded.first = behind - ESCAPE_LENGTH - start;
        }
        unneeded.count += usize::from(is_unneeded);
    })?;
    url.expect_end()?;
    Ok(unneeded)
}

impl<'a> NormalParts<'a> {
    #[inline]
    fn read(input: &'a [u8]) -> Result<Self, Refusal> {
        let mut url = Cursor::new(input)?;
        let Server { host, port } = server(&mut url)?;
        let port = if port.value == DEFAULT_PORT { &[] } else { port.digits };
        if url.at == input.len() {
            return Ok(NormalParts { host, port, page: b"/", unneeded: Unneeded::default() });
        }
        let page_sent = &input[url.at..];
        Ok(NormalParts { host, port, page: page_sent, unneeded: page(&mut url)? })
    }

    #[inline]
    fn normal_length(&self) -> usize {
        let port = if self.port.is_empty() { 0 } else { 1 + self.port.len() };
        URL_START.len() + self.host.len() + port + self.page.len() - ESCAPE_EXCESS * self.unneeded.count
    }

    /// Fills the output, which is as long as the normal form.
    #[inline]
    fn write(&self, out: &mut [u8]) {
        let (start, out) = out.split_at_mut(URL_START.len());
        start.copy_from_slice(URL_START);
        let (host, mut out) = out.split_at_mut(self.host.len());
        host.copy_from_slice(self.host);
        host.make_ascii_lowercase();
        if !self.port.is_empty() {
            let (port, behind) = out.split_at_mut(1 + self.port.len());
            port[0] = b':';
            port[1..].copy_from_slice(self.port);
            out = behind;
        }
        unescape(self.page, &self.unneeded, out);
    }
}

/// Fills the output with the page, without its unneeded escapes. What lies before the first and behind the
/// last of them is copied as it is.
#[inline]
fn unescape(page: &[u8], unneeded: &Unneeded, out: &mut [u8]) {
    let (mut at, mut written) = (unneeded.first, unneeded.first);
    out[..written].copy_from_slice(&page[..at]);
    let mut left = unneeded.count;
    while left > 0 {
        let mut byte = page[at];
        at += 1;
        if byte == b'%' {
            let digit = |place: usize| HEX_VALUES[usize::from(page[place])];
            let escaped = digit(at) << 4 | digit(at + 1);
            // The digits of a needed escape follow like other bytes.
            if is_in(escaped, UNRESERVED) {
                byte = escaped;
                at += ESCAPE_EXCESS;
                left -= 1;
            }
        }
        out[written] = byte;
        written += 1;
    }
    out[written..].copy_from_slice(&page[at..]);
}

/// Its answers are those of `url::normalize`; what is written stands at the front of the output.
pub fn url_normalize(input: &[u8], out: &mut [u8]) -> Result<usize, Refusal> {
    let parts = NormalParts::read(input)?;
    let length = parts.normal_length();
    if length > HEADER_LIMIT {
        return Err(Refusal::new(VALUE_TOO_LONG, HEADER_LIMIT));
    }
    let Some(out) = out.get_mut(..length) else {
        return Err(Refusal::new(OUTPUT_TOO_SHORT, 0));
    };
    parts.write(out);
    Ok(length)
}
