//! Chunked bodies (RFC 2616 3.6.1).
//!
//! The input is first taken apart with limits aside; the limits are then checked over the pieces.

use crate::grammar::{any_number, one_or_more, optional, parse_front, part, Grammar, Name, Parsed};
use crate::number::{BODY_TOO_LARGE, FORBIDDEN_FIELD, LINE_TOO_LONG, MALFORMED, TRAILER_TOO_LONG};
use crate::rules::{is_text, quoted, quoted_bytes, token, CRLF};
use crate::{fit, Refusal, Span, OUT_OF_RANGE};
use std::sync::OnceLock;
use Grammar::{Byte, Exact, OneOf, Seq};

pub const LINE_LIMIT: usize = 1_024;
pub const TRAILER_LIMIT: usize = 8_192;
/// The most bytes the writer takes.
pub const BODY_LIMIT: usize = 1_073_741_824;
/// "By RFC 2616 14.40 a trailer must not hold" these.
pub const FORBIDDEN_FIELDS: [&str; 3] = ["Transfer-Encoding", "Content-Length", "Trailer"];
/// The length of the longest, which is the first.
pub const FORBIDDEN_LONGEST: usize = FORBIDDEN_FIELDS[0].len();

const HEX: u32 = 16;
pub(crate) const LAST_CHUNK: &[u8] = b"0\r\n\r\n";

const LINE: Name = "line";
const SIZE: Name = "size";
const TRAILER_LINE: Name = "trailer line";
const FIELD_NAME: Name = "field name";

#[derive(Clone, Debug, PartialEq, Eq, Hash)]
pub enum Decoded {
    Whole { taken: usize, trailer: Span, data: Vec<u8> },
    More,
    Refused(Refusal),
}

fn is_hex(byte: u8) -> bool {
    byte.is_ascii_hexdigit()
}

/// Whether a complete name is one that no trailer may hold, "letter case ignored".
pub fn is_forbidden(name: &[u8]) -> bool {
    FORBIDDEN_FIELDS.iter().any(|field| name.eq_ignore_ascii_case(field.as_bytes()))
}

/// A chunk line with its CRLF; no blanks around extensions (house rule).
fn chunk_line() -> &'static Grammar {
    static GRAMMAR: OnceLock<Grammar> = OnceLock::new();
    GRAMMAR.get_or_init(|| {
        let size = part(SIZE, one_or_more(Byte(is_hex, b'0')));
        let value = OneOf(vec![token(), quoted(quoted_bytes())]);
        let extension = Seq(vec![Exact(";"), token(), optional(Seq(vec![Exact("="), value]))]);
        Seq(vec![part(LINE, Seq(vec![size, any_number(extension)])), Exact(CRLF)])
    })
}

/// What may follow the last chunk: the closing CRLF, or a trailer line and again either.
fn trailer_step() -> &'static Grammar {
    static GRAMMAR: OnceLock<Grammar> = OnceLock::new();
    GRAMMAR.get_or_init(|| {
        let name = part(FIELD_NAME, token());
        let line = Seq(vec![name, Exact(":"), any_number(Byte(is_text, b'a')), Exact(CRLF)]);
        OneOf(vec![Exact(CRLF), part(TRAILER_LINE, line)])
    })
}

fn line_break() -> &'static Grammar {
    static GRAMMAR: OnceLock<Grammar> = OnceLock::new();
    GRAMMAR.get_or_init(|| Exact(CRLF))
}

/// A chunk line without its CRLF, and its size digits.
#[derive(Debug)]
struct ChunkLine {
    line: Span,
    size: Span,
}

#[derive(Debug, PartialEq, Eq)]
enum Outcome {
    /// The bytes before this place are a body.
    Body(usize),
    /// All of the input is live, and no body yet.
    EndsEarly,
    /// The byte at this place leaves no continuation.
    Malformed(usize),
}

/// The live beginning of an input, or the body at its front, with limits aside.
#[derive(Debug, Default)]
struct Pieces {
    lines: Vec<ChunkLine>,
    data: Vec<Span>,
    trailer: Span,
    /// The names of trailer lines, each with its colon behind it.
    names: Vec<Span>,
}

/// Reads a rule at a place of the input. On a stop the second value says how.
fn read_at(rule: &Grammar, input: &[u8], at: usize) -> (Parsed, Result<usize, Outcome>) {
    let parsed = parse_front(rule, &input[at..]);
    let live = at + parsed.live;
    let outcome = match parsed.end {
        Some(end) => Ok(at + end),
        None if live == input.len() => Err(Outcome::EndsEarly),
        None => Err(Outcome::Malformed(live)),
    };
    (parsed, outcome)
}

/// The value of hex digits; values above the greatest u128 count as that, which passes every room.
fn size_value(digits: &[u8]) -> u128 {
    digits.iter().fold(0, add_digit)
}

fn add_digit(value: u128, digit: &u8) -> u128 {
    let digit = char::from(*digit).to_digit(HEX).unwrap_or(0);
    value.saturating_mul(HEX.into()).saturating_add(digit.into())
}

impl Pieces {
    fn take_apart(&mut self, input: &[u8]) -> Result<usize, Outcome> {
        let mut at = 0;
        loop {
            let (size, next) = self.chunk_line(input, at)?;
            at = next;
            if size == 0 {
                return self.trailer(input, at);
            }
            at = self.chunk_data(input, at, size)?;
        }
    }

    fn chunk_line(&mut self, input: &[u8], at: usize) -> Result<(u128, usize), Outcome> {
        let (parsed, outcome) = read_at(chunk_line(), input, at);
        let place = |name| {
            let span = parsed.clip(parsed.first(name).unwrap_or_default());
            Span { start: at + span.start, ..span }
        };
        let (line, size) = (place(LINE), place(SIZE));
        self.lines.push(ChunkLine { line, size });
        Ok((size_value(size.of(input)), outcome?))
    }

    fn chunk_data(&mut self, input: &[u8], at: usize, size: u128) -> Result<usize, Outcome> {
        let left = input.len() - at;
        match usize::try_from(size) {
            Ok(length) if length <= left => {
                self.data.push(Span { start: at, length });
                read_at(line_break(), input, at + length).1
            }
            _ => Err(Outcome::EndsEarly),
        }
    }

    fn trailer(&mut self, input: &[u8], start: usize) -> Result<usize, Outcome> {
        let mut at = start;
        // "Without one, the start is the closing CRLF and the length 0."
        self.trailer = Span { start, length: 0 };
        loop {
            let (parsed, outcome) = read_at(trailer_step(), input, at);
            let Some(line) = parsed.first(TRAILER_LINE) else {
                return outcome;
            };
            self.trailer.length = at + parsed.clip(line).end() - start;
            // A colon that is not live was supplied to complete the line: more of the name may come instead.
            let name = parsed.first(FIELD_NAME).filter(|name| name.end() < parsed.live);
            self.names.extend(name.map(|name| Span { start: at + name.start, ..name }));
            at = outcome?;
        }
    }

    /// Rows 5, 6 and 7, and 15 of document 02, each at the live byte that its row names.
    fn limits(&self, input: &[u8], room: usize) -> Vec<Refusal> {
        let mut broken = Vec::new();
        let mut finished: u128 = 0;
        for ChunkLine { line, size } in &self.lines {
            if line.length > LINE_LIMIT {
                broken.push(Refusal::new(LINE_TOO_LONG, line.start + LINE_LIMIT));
            }
            let mut value = 0;
            for (before, digit) in size.of(input).iter().enumerate() {
                value = add_digit(value, digit);
                if finished.saturating_add(value) > room as u128 {
                    broken.push(Refusal::new(BODY_TOO_LARGE, size.start + before));
                    break;
                }
            }
            finished = finished.saturating_add(value);
        }
        if self.trailer.length > TRAILER_LIMIT {
            broken.push(Refusal::new(TRAILER_TOO_LONG, self.trailer.start + TRAILER_LIMIT));
        }
        let forbidden = self.names.iter().filter(|name| is_forbidden(name.of(input)));
        broken.extend(forbidden.map(|name| Refusal::new(FORBIDDEN_FIELD, name.end())));
        broken
    }
}

/// The lowest place decides; at one byte the order is 5, 6, 7, 15. A byte that breaks a limit is live, so it stands
/// before the place of 1 and inside the body.
pub fn decode(input: &[u8], room: usize) -> Decoded {
    let mut pieces = Pieces::default();
    let outcome = match pieces.take_apart(input) {
        Ok(end) => Outcome::Body(end),
        Err(stop) => stop,
    };
    let limits = pieces.limits(input, room);
    if let Some(first) = limits.into_iter().min_by_key(|limit| (limit.place, limit.number)) {
        return Decoded::Refused(first);
    }
    match outcome {
        Outcome::Body(taken) => {
            let chunks: Vec<&[u8]> = pieces.data.iter().map(|span| span.of(input)).collect();
            Decoded::Whole { taken, trailer: pieces.trailer, data: chunks.concat() }
        }
        Outcome::EndsEarly => Decoded::More,
        Outcome::Malformed(place) => Decoded::Refused(Refusal::new(MALFORMED, place)),
    }
}

/// The bytes at the front of an output of `out_len` bytes, or a refusal: 9, 7, 8.
pub fn encode(body: &[u8], chunk_len: usize, out_len: usize) -> Result<Vec<u8>, Refusal> {
    if chunk_len == 0 {
        return Err(OUT_OF_RANGE);
    }
    if body.len() > BODY_LIMIT {
        return Err(Refusal::new(BODY_TOO_LARGE, 0));
    }
    let mut frame = Vec::new();
    for chunk in body.chunks(chunk_len) {
        frame.extend_from_slice(format!("{:X}{CRLF}", chunk.len()).as_bytes());
        frame.extend_from_slice(chunk);
        frame.extend_from_slice(CRLF.as_bytes());
    }
    frame.extend_from_slice(LAST_CHUNK);
    fit(frame, out_len)
}
