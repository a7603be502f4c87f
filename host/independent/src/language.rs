//! Language tags (RFC 2616 3.10).

use crate::grammar::{any_number, part, repeat, Grammar, Name};
use crate::{no_limits, read_both, read_header, Refusal, Refused};
use std::sync::OnceLock;
use Grammar::{Byte, Exact, Seq};

const LONGEST_PART: usize = 8;
const TAG_PART: Name = "part";

#[derive(Clone, Copy, Debug, PartialEq, Eq, Hash)]
pub struct LanguageTag {
    pub parts: usize,
    /// The length of the primary tag.
    pub first: usize,
}

fn is_letter(byte: u8) -> bool {
    byte.is_ascii_alphabetic()
}

pub fn grammar() -> &'static Grammar {
    static GRAMMAR: OnceLock<Grammar> = OnceLock::new();
    let tag_part = || part(TAG_PART, repeat(1, LONGEST_PART, Byte(is_letter, b'a')));
    GRAMMAR.get_or_init(|| Seq(vec![tag_part(), any_number(Seq(vec![Exact("-"), tag_part()]))]))
}

pub fn read(input: &[u8]) -> Result<LanguageTag, Refusal> {
    let parsed = read_header(grammar(), input, no_limits)?;
    let first = parsed.first(TAG_PART).map_or(0, |span| span.length);
    Ok(LanguageTag { parts: parsed.all(TAG_PART).count(), first })
}

pub fn equal(first: &[u8], second: &[u8]) -> Result<bool, Refused> {
    read_both(read, first, second)?;
    Ok(first.eq_ignore_ascii_case(second))
}
