//! Quality values in thousandths (RFC 2616 3.9).

use crate::grammar::{optional, part, repeat, Grammar, Name};
use crate::rules::digit;
use crate::{fit, no_limits, read_header, Refusal, OUT_OF_RANGE};
use std::sync::OnceLock;
use Grammar::{Exact, OneOf, Seq};

const THOUSANDTHS: u32 = 1000;
const PLACES: usize = 3;
const WHOLE: Name = "whole";
const FRACTION: Name = "fraction";

pub fn grammar() -> &'static Grammar {
    static GRAMMAR: OnceLock<Grammar> = OnceLock::new();
    let form = |whole, digit| {
        let fraction = part(FRACTION, repeat(0, PLACES, digit));
        Seq(vec![part(WHOLE, Exact(whole)), optional(Seq(vec![Exact("."), fraction]))])
    };
    GRAMMAR.get_or_init(|| OneOf(vec![form("0", digit()), form("1", Exact("0"))]))
}

pub fn read(input: &[u8]) -> Result<u32, Refusal> {
    let parsed = read_header(grammar(), input, no_limits)?;
    let bytes = |name| parsed.first(name).map_or(&[] as &[u8], |span| span.of(input));
    // Missing places count as zeros.
    let places = bytes(FRACTION).iter().chain(b"000").take(PLACES);
    let fraction = places.fold(0, |value, digit| value * 10 + u32::from(digit - b'0'));
    Ok(if bytes(WHOLE) == b"1" { THOUSANDTHS } else { fraction })
}

/// The shortest form.
pub fn write(thousandths: u32, out_len: usize) -> Result<Vec<u8>, Refusal> {
    let text = match thousandths {
        0 => "0".to_string(),
        THOUSANDTHS => "1".to_string(),
        1..THOUSANDTHS => format!("0.{thousandths:03}").trim_end_matches('0').to_string(),
        _ => return Err(OUT_OF_RANGE),
    };
    fit(text.into_bytes(), out_len)
}
