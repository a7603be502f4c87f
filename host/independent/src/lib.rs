//! HTTP/1.1 protocol parameters and chunked bodies, written from documents 01 and 02 alone; of the latter
//! requests (i), (ii), (iii), (iv), (v), (x) and (xii).
//!
//! Each rule of the document is a grammar value. A matcher follows every alternative of it, which gives the
//! longest beginning that can still be completed; limits are checked afterwards, over the parts of that
//! beginning. The chunked readers `plain`, `pieces` and `plain_pieces`, and those of `plain_values`, judge
//! byte by byte instead.

pub mod bench;
pub mod chunked;
pub mod date;
pub mod delta;
pub mod etag;
pub mod generate;
pub mod grammar;
pub mod language;
pub mod media;
pub mod pieces;
pub mod plain;
mod plain_classes;
mod plain_cursor;
mod plain_media;
pub mod plain_pieces;
mod plain_url;
pub mod plain_values;
pub mod products;
pub mod qvalue;
pub mod ranges;
pub mod rules;
pub mod url;
pub mod version;

use grammar::{parse, Grammar, Parsed};

/// The refusal numbers of document 01, and 14 and 15 of document 02.
pub mod number {
    pub const MALFORMED: u8 = 1;
    pub const NUMBER_ABOVE_LIMIT: u8 = 2;
    pub const NO_SUCH_DATE: u8 = 3;
    pub const WRONG_DAY_NAME: u8 = 4;
    pub const LINE_TOO_LONG: u8 = 5;
    pub const TRAILER_TOO_LONG: u8 = 6;
    pub const BODY_TOO_LARGE: u8 = 7;
    pub const OUTPUT_TOO_SHORT: u8 = 8;
    pub const ARGUMENT_OUT_OF_RANGE: u8 = 9;
    pub const TOO_MANY_PARAMETERS: u8 = 10;
    pub const REPEATED_ATTRIBUTE: u8 = 11;
    pub const COMMENT_TOO_DEEP: u8 = 12;
    pub const VALUE_TOO_LONG: u8 = 13;
    pub const FRAMED_TOO_LONG: u8 = 14;
    pub const FORBIDDEN_FIELD: u8 = 15;
}

/// The most bytes of a header value.
pub const HEADER_LIMIT: usize = 8_192;

/// A row of the table of refusals, and the place counted from 0.
#[derive(Clone, Copy, Debug, PartialEq, Eq, Hash)]
pub struct Refusal {
    pub number: u8,
    pub place: usize,
}

impl Refusal {
    pub const fn new(number: u8, place: usize) -> Self {
        Refusal { number, place }
    }
}

/// Where a part stands in the bytes that were read.
#[derive(Clone, Copy, Debug, Default, PartialEq, Eq, Hash)]
pub struct Span {
    pub start: usize,
    pub length: usize,
}

impl Span {
    pub fn end(self) -> usize {
        self.start + self.length
    }

    pub fn of(self, input: &[u8]) -> &[u8] {
        &input[self.start..self.end()]
    }
}

/// Which of two compared byte strings was refused.
#[derive(Clone, Copy, Debug, PartialEq, Eq, Hash)]
pub enum Which {
    First,
    Second,
}

/// A comparison's refusal.
#[derive(Clone, Copy, Debug, PartialEq, Eq, Hash)]
pub struct Refused {
    pub which: Which,
    pub refusal: Refusal,
}

/// Reads a header value whole: 13, then the lowest place among 1 and the limits of the kind.
fn read_header(
    grammar: &Grammar,
    input: &[u8],
    limits: impl Fn(&Parsed) -> Vec<Refusal>,
) -> Result<Parsed, Refusal> {
    if input.len() > HEADER_LIMIT {
        return Err(Refusal::new(number::VALUE_TOO_LONG, HEADER_LIMIT));
    }
    let parsed = parse(grammar, input);
    match parsed.refusal(limits(&parsed)) {
        Some(refusal) => Err(refusal),
        None => Ok(parsed),
    }
}

/// Kinds of header values that no limit of their own refuses.
fn no_limits(_: &Parsed) -> Vec<Refusal> {
    Vec::new()
}

/// Reads first one, then the other; the first refusal is the answer.
fn read_both<T>(
    read: impl Fn(&[u8]) -> Result<T, Refusal>,
    first: &[u8],
    second: &[u8],
) -> Result<(T, T), Refused> {
    let one = read(first).map_err(|refusal| Refused { which: Which::First, refusal })?;
    let other = read(second).map_err(|refusal| Refused { which: Which::Second, refusal })?;
    Ok((one, other))
}

/// A writer's bytes, if the lent output has room for them.
fn fit(bytes: Vec<u8>, out_len: usize) -> Result<Vec<u8>, Refusal> {
    if bytes.len() > out_len {
        return Err(Refusal::new(number::OUTPUT_TOO_SHORT, 0));
    }
    Ok(bytes)
}

/// Refusal 9, which every writer gives first, and so do the readers of ranges and of dates.
const OUT_OF_RANGE: Refusal = Refusal::new(number::ARGUMENT_OUT_OF_RANGE, 0);
