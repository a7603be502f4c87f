//! http URLs (RFC 2616 3.2.2), their comparison (3.2.3) and, by request (x), their normal form.

use crate::grammar::{any_number, one_or_more, optional, part, Grammar, Name};
use crate::number::VALUE_TOO_LONG;
use crate::rules::{digit, number_limit, number_of};
use crate::{fit, read_both, read_header, Refusal, Refused, Span, HEADER_LIMIT};
use std::sync::OnceLock;
use Grammar::{AnyCase, Byte, Exact, OneOf, Seq};

pub const PORT_LIMIT: u64 = 65_535;
const DEFAULT_PORT: u16 = 80;
const MARKS: &[u8] = b"-_.!~*'()";
const RESERVED_IN_PATH: &[u8] = b";/:@&=+$,";
/// `%` and two hex digits.
const ESCAPE_LENGTH: usize = 3;

const HOST: Name = "host";
const PORT: Name = "port";
const PATH: Name = "path";
const QUERY: Name = "query";

#[derive(Clone, Copy, Debug, PartialEq, Eq, Hash)]
pub struct Url {
    pub host: Span,
    pub port: u16,
    /// With its first `/`.
    pub path: Option<Span>,
    /// Without the `?`.
    pub query: Option<Span>,
}

fn is_host_byte(byte: u8) -> bool {
    byte.is_ascii_alphanumeric() || byte == b'-' || byte == b'.'
}

/// Letters, digits and marks: what an escape may stand for.
fn is_unreserved(byte: u8) -> bool {
    byte.is_ascii_alphanumeric() || MARKS.contains(&byte)
}

fn is_path_byte(byte: u8) -> bool {
    is_unreserved(byte) || RESERVED_IN_PATH.contains(&byte)
}

fn is_query_byte(byte: u8) -> bool {
    is_path_byte(byte) || byte == b'?'
}

fn is_hex(byte: u8) -> bool {
    byte.is_ascii_hexdigit()
}

pub fn grammar() -> &'static Grammar {
    static GRAMMAR: OnceLock<Grammar> = OnceLock::new();
    GRAMMAR.get_or_init(|| {
        let hex = || Byte(is_hex, b'0');
        let escape = || Seq(vec![Exact("%"), hex(), hex()]);
        let run = |class| any_number(OneOf(vec![Byte(class, b'a'), escape()]));
        let host = part(HOST, one_or_more(Byte(is_host_byte, b'a')));
        let port = optional(Seq(vec![Exact(":"), part(PORT, any_number(digit()))]));
        let path = part(PATH, Seq(vec![Exact("/"), run(is_path_byte)]));
        let query = optional(Seq(vec![Exact("?"), part(QUERY, run(is_query_byte))]));
        Seq(vec![AnyCase("http:"), Exact("//"), host, port, optional(Seq(vec![path, query]))])
    })
}

pub fn read(input: &[u8]) -> Result<Url, Refusal> {
    let limits = |parsed: &_| number_limit(parsed, input, PORT, PORT_LIMIT);
    let parsed = read_header(grammar(), input, limits)?;
    let digits = parsed.first(PORT).filter(|span| span.length > 0);
    Ok(Url {
        host: parsed.first(HOST).unwrap_or_default(),
        port: digits.map_or(DEFAULT_PORT, |span| number_of(input, span) as u16),
        path: parsed.first(PATH),
        query: parsed.first(QUERY),
    })
}

/// Puts each unreserved character in place of its escape; other escapes stay as sent.
fn unescape(bytes: &[u8]) -> Vec<u8> {
    let mut plain = Vec::with_capacity(bytes.len());
    let mut at = 0;
    while at < bytes.len() {
        let length = if bytes[at] == b'%' { ESCAPE_LENGTH } else { 1 };
        let sent = &bytes[at..at + length];
        match escaped(sent) {
            Some(byte) if is_unreserved(byte) => plain.push(byte),
            _ => plain.extend_from_slice(sent),
        }
        at += length;
    }
    plain
}

fn escaped(sent: &[u8]) -> Option<u8> {
    let digits = sent.strip_prefix(b"%")?;
    u8::from_str_radix(std::str::from_utf8(digits).ok()?, 16).ok()
}

/// What two URLs must have in common to be equal.
#[derive(PartialEq, Eq)]
struct Meaning {
    host: Vec<u8>,
    port: u16,
    path: Vec<u8>,
    query: Option<Vec<u8>>,
}

fn meaning(url: Url, input: &[u8]) -> Meaning {
    Meaning {
        host: url.host.of(input).to_ascii_lowercase(),
        port: url.port,
        path: url.path.map_or(b"/".to_vec(), |span| unescape(span.of(input))),
        query: url.query.map(|span| unescape(span.of(input))),
    }
}

pub fn equal(first: &[u8], second: &[u8]) -> Result<bool, Refused> {
    let (one, other) = read_both(read, first, second)?;
    Ok(meaning(one, first) == meaning(other, second))
}

/// The spelling that stands for all URLs of one meaning.
fn spell(meaning: Meaning) -> Vec<u8> {
    let port = match meaning.port {
        DEFAULT_PORT => String::new(),
        port => format!(":{port}"),
    };
    let query = meaning.query.map_or(Vec::new(), |query| [b"?", &query[..]].concat());
    [b"http://", &meaning.host[..], port.as_bytes(), &meaning.path, &query].concat()
}

/// "A normal form of 8,193 bytes is refusal 13 at 8,192", as the `/` for an absent path can make it; "A short
/// output is refusal 8, after any other."
pub fn normalize(input: &[u8], out_len: usize) -> Result<Vec<u8>, Refusal> {
    let normal = spell(meaning(read(input)?, input));
    if normal.len() > HEADER_LIMIT {
        return Err(Refusal::new(VALUE_TOO_LONG, HEADER_LIMIT));
    }
    fit(normal, out_len)
}
