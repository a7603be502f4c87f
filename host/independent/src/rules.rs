//! The basic rules of RFC 2616 2.2 as document 01 states them.

use crate::grammar::{any_number, one_or_more, Grammar, Name, Parsed};
use crate::number::NUMBER_ABOVE_LIMIT;
use crate::{Refusal, Span};
use Grammar::{Byte, Exact, OneOf, Seq};

const HT: u8 = 9;
const SEPARATORS: &[u8] = b"()<>@,;:\\\"/[]?={}";

pub const CRLF: &str = "\r\n";

pub fn is_token_byte(byte: u8) -> bool {
    (33..=126).contains(&byte) && !SEPARATORS.contains(&byte)
}

pub fn is_blank(byte: u8) -> bool {
    byte == b' ' || byte == HT
}

/// HT, 32 to 126, 128 to 255: what trailer lines hold, and quoted strings and comments but for their marks.
pub fn is_text(byte: u8) -> bool {
    byte == HT || (32..=126).contains(&byte) || byte >= 128
}

fn is_quoted_text(byte: u8) -> bool {
    is_text(byte) && byte != b'"' && byte != b'\\'
}

/// What may follow the backslash of a pair (house rule).
pub fn is_pair_byte(byte: u8) -> bool {
    byte == HT || (32..=126).contains(&byte)
}

fn is_digit(byte: u8) -> bool {
    byte.is_ascii_digit()
}

pub fn digit() -> Grammar {
    Byte(is_digit, b'0')
}

pub fn digits() -> Grammar {
    one_or_more(digit())
}

pub fn token() -> Grammar {
    one_or_more(Byte(is_token_byte, b'a'))
}

pub fn blank() -> Grammar {
    Byte(is_blank, b' ')
}

pub fn pair() -> Grammar {
    Seq(vec![Exact("\\"), Byte(is_pair_byte, b'a')])
}

/// What stands between the quotes of a quoted string.
pub fn quoted_bytes() -> Grammar {
    any_number(OneOf(vec![Byte(is_quoted_text, b'a'), pair()]))
}

pub fn quoted(inner: Grammar) -> Grammar {
    Seq(vec![Exact("\""), inner, Exact("\"")])
}

/// Takes the backslash of each pair away.
pub fn unquote(bytes: &[u8]) -> Vec<u8> {
    let mut plain = Vec::with_capacity(bytes.len());
    let mut rest = bytes.iter();
    while let Some(&byte) = rest.next() {
        plain.push(if byte == b'\\' { rest.next().copied().unwrap_or(byte) } else { byte });
    }
    plain
}

/// The value of decimal digits, or how many stand before the one that passes the limit.
pub fn decimal(digits: &[u8], limit: u64) -> Result<u64, usize> {
    let mut value = 0;
    for (before, digit) in digits.iter().enumerate() {
        value = value * 10 + u64::from(digit - b'0');
        if value > limit {
            return Err(before);
        }
    }
    Ok(value)
}

/// Refusal 2 for each part of the name, at the digit that passes the limit.
pub fn number_limit(parsed: &Parsed, input: &[u8], name: Name, limit: u64) -> Vec<Refusal> {
    let passing = |span: Span| {
        let span = parsed.clip(span);
        decimal(span.of(input), limit).err().map(|before| span.start + before)
    };
    let places = parsed.all(name).filter_map(passing);
    places.map(|place| Refusal::new(NUMBER_ABOVE_LIMIT, place)).collect()
}

/// The value of a part that is known to keep its limit.
pub fn number_of(input: &[u8], span: Span) -> u64 {
    span.of(input).iter().fold(0, |value, digit| value * 10 + u64::from(digit - b'0'))
}

/// A number, or the cap that stands for one above its limit.
#[derive(Clone, Copy, Debug, PartialEq, Eq)]
pub struct Capped {
    pub value: u64,
    pub capped: bool,
}

/// Leading zeros aside, the longer number is the larger, and of two as long the one whose text comes later.
/// So any count of digits can be compared, and none is summed.
fn is_above(digits: &[u8], limit: u64) -> bool {
    let zeros = digits.iter().take_while(|digit| **digit == b'0').count();
    let (number, limit) = (&digits[zeros..], limit.to_string());
    (number.len(), number) > (limit.len(), limit.as_bytes())
}

/// The value of a part of digits; above the limit, the cap.
pub fn number_capped(input: &[u8], span: Span, limit: u64, cap: u64) -> Capped {
    if is_above(span.of(input), limit) {
        return Capped { value: cap, capped: true };
    }
    Capped { value: number_of(input, span), capped: false }
}
