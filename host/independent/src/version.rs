//! HTTP versions (RFC 2616 3.1).

use crate::grammar::{part, Grammar, Name, Parsed};
use crate::rules::{digits, number_limit, number_of};
use crate::{fit, read_both, read_header, Refusal, Refused, OUT_OF_RANGE};
use std::cmp::Ordering;
use std::sync::OnceLock;

pub const NUMBER_LIMIT: u64 = 65_535;
const MAJOR: Name = "major";
const MINOR: Name = "minor";

/// Ordered by major, then minor, as numbers.
#[derive(Clone, Copy, Debug, PartialEq, Eq, PartialOrd, Ord, Hash)]
pub struct Version {
    pub major: u16,
    pub minor: u16,
}

impl Version {
    pub const HTTP_1_1: Version = Version { major: 1, minor: 1 };
    pub const HTTP_1_0: Version = Version { major: 1, minor: 0 };
}

pub fn grammar() -> &'static Grammar {
    static GRAMMAR: OnceLock<Grammar> = OnceLock::new();
    GRAMMAR.get_or_init(|| {
        let (major, minor) = (part(MAJOR, digits()), part(MINOR, digits()));
        Grammar::Seq(vec![Grammar::AnyCase("HTTP/"), major, Grammar::Exact("."), minor])
    })
}

fn limits(parsed: &Parsed, input: &[u8]) -> Vec<Refusal> {
    let mut broken = number_limit(parsed, input, MAJOR, NUMBER_LIMIT);
    broken.extend(number_limit(parsed, input, MINOR, NUMBER_LIMIT));
    broken
}

pub fn read(input: &[u8]) -> Result<Version, Refusal> {
    let parsed = read_header(grammar(), input, |parsed| limits(parsed, input))?;
    let number = |name| parsed.first(name).map_or(0, |span| number_of(input, span) as u16);
    Ok(Version { major: number(MAJOR), minor: number(MINOR) })
}

/// Capitals, without leading zeros.
pub fn write(major: u64, minor: u64, out_len: usize) -> Result<Vec<u8>, Refusal> {
    if major > NUMBER_LIMIT || minor > NUMBER_LIMIT {
        return Err(OUT_OF_RANGE);
    }
    fit(format!("HTTP/{major}.{minor}").into_bytes(), out_len)
}

pub fn compare(first: &[u8], second: &[u8]) -> Result<Ordering, Refused> {
    let (one, other) = read_both(read, first, second)?;
    Ok(one.cmp(&other))
}
