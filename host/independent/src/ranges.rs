//! Sets of byte ranges (RFC 2616 14.35.1), resolved against an entity's length, and the value of
//! `Content-Range` (14.16), by request (iv).

use crate::grammar::{any_number, part, Grammar, Name, Parsed};
use crate::number::{MALFORMED, TOO_MANY_PARAMETERS};
use crate::rules::{blank, digit, digits, number_capped};
use crate::{fit, read_header, Refusal, Span, OUT_OF_RANGE};
use std::sync::OnceLock;
use Grammar::{AnyCase, Exact, OneOf, Seq};

/// The most elements of a set.
pub const RANGE_LIMIT: usize = 16;
/// The largest entity length, and what larger numbers of a set are capped to: 2^63-1.
pub const NUMBER_LIMIT: u64 = (1 << 63) - 1;

/// Empty in front of a suffix length.
const FIRST: Name = "first";
/// Empty behind a first alone; the suffix length where no first is.
const LAST: Name = "last";

/// The first and the last byte of a range that is not empty, counted from 0.
#[derive(Clone, Copy, Debug, Default, PartialEq, Eq, Hash)]
pub struct Range {
    pub first: u64,
    pub last: u64,
}

#[derive(Clone, Debug, PartialEq, Eq, Hash)]
pub enum Ranges {
    /// What is left of the ranges, in the order sent; at least one.
    Satisfiable(Vec<Range>),
    Unsatisfiable,
}

pub fn grammar() -> &'static Grammar {
    static GRAMMAR: OnceLock<Grammar> = OnceLock::new();
    GRAMMAR.get_or_init(|| {
        let from_first = || Seq(vec![part(FIRST, digits()), Exact("-"), part(LAST, any_number(digit()))]);
        let suffix = || Seq(vec![part(FIRST, Seq(vec![])), Exact("-"), part(LAST, digits())]);
        let element = || OneOf(vec![from_first(), suffix()]);
        let blanks = || any_number(blank());
        let further = Seq(vec![blanks(), Exact(","), blanks(), element()]);
        Seq(vec![AnyCase("bytes="), element(), any_number(further)])
    })
}

/// The two numbers of each element, as far as they stand in the input.
fn elements(parsed: &Parsed) -> impl Iterator<Item = (Span, Span)> + '_ {
    let firsts = parsed.all(FIRST).map(|span| parsed.clip(span));
    firsts.zip(parsed.all(LAST).map(|span| parsed.clip(span)))
}

/// The number at a part, capped; none where the part is empty.
fn number_at(input: &[u8], span: Span) -> Option<u64> {
    (span.length > 0).then(|| number_capped(input, span, NUMBER_LIMIT, NUMBER_LIMIT).value)
}

fn is_backward(first: Option<u64>, last: Option<u64>) -> bool {
    first.zip(last).is_some_and(|(first, last)| last < first)
}

/// "a seventeenth is refusal 10 at its first byte", and "A last below its first, once its digits end, is
/// malformed at its last digit, whatever follows." In the live beginning all digits end: one more would be
/// live too.
fn limits(parsed: &Parsed, input: &[u8]) -> Vec<Refusal> {
    let seventeenth = parsed.all(FIRST).nth(RANGE_LIMIT);
    let too_many = seventeenth.map(|span| Refusal::new(TOO_MANY_PARAMETERS, span.start));
    let mut numbers = elements(parsed);
    let backward =
        numbers.find(|(first, last)| is_backward(number_at(input, *first), number_at(input, *last)));
    let malformed = backward.map(|(_, last)| Refusal::new(MALFORMED, last.end() - 1));
    too_many.into_iter().chain(malformed).collect()
}

/// What an element and the entity have in common, unless that is empty.
fn resolve(first: Option<u64>, last: Option<u64>, entity_length: u64) -> Option<Range> {
    let (start, end) = match (first, last) {
        (Some(first), Some(last)) => (first, last + 1),
        (Some(first), None) => (first, entity_length),
        (None, suffix) => (entity_length.saturating_sub(suffix.unwrap_or(0)), entity_length),
    };
    let end = end.min(entity_length);
    (start < end).then(|| Range { first: start, last: end - 1 })
}

/// An entity length above its limit is refusal 9, first of all.
pub fn read(input: &[u8], entity_length: u64) -> Result<Ranges, Refusal> {
    if entity_length > NUMBER_LIMIT {
        return Err(OUT_OF_RANGE);
    }
    let parsed = read_header(grammar(), input, |parsed| limits(parsed, input))?;
    let numbers = elements(&parsed).map(|(first, last)| (number_at(input, first), number_at(input, last)));
    let left: Vec<_> = numbers.filter_map(|(first, last)| resolve(first, last, entity_length)).collect();
    Ok(if left.is_empty() { Ranges::Unsatisfiable } else { Ranges::Satisfiable(left) })
}

/// The `Content-Range` value of one range, as `bytes 0-499/1234`: "refusal 9 unless first is at most last,
/// last is below the length and the length at most 2^63-1, then 8 for a short output".
pub fn write_content_range(first: u64, last: u64, length: u64, out_len: usize) -> Result<Vec<u8>, Refusal> {
    if first > last || last >= length || length > NUMBER_LIMIT {
        return Err(OUT_OF_RANGE);
    }
    fit(format!("bytes {first}-{last}/{length}").into_bytes(), out_len)
}
