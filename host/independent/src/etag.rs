//! Entity tags (RFC 2616 3.11, matched as in 13.3.3).

use crate::grammar::{optional, part, Grammar, Name};
use crate::rules::{quoted, quoted_bytes};
use crate::{no_limits, read_both, read_header, Refusal, Refused, Span};
use std::sync::OnceLock;

const WEAK: Name = "weak";
const OPAQUE: Name = "opaque";

#[derive(Clone, Copy, Debug, PartialEq, Eq, Hash)]
pub struct EntityTag {
    pub weak: bool,
    /// The quoted bytes, without the quotes.
    pub opaque: Span,
}

pub fn grammar() -> &'static Grammar {
    static GRAMMAR: OnceLock<Grammar> = OnceLock::new();
    GRAMMAR.get_or_init(|| {
        let weak = optional(part(WEAK, Grammar::AnyCase("W/")));
        Grammar::Seq(vec![weak, quoted(part(OPAQUE, quoted_bytes()))])
    })
}

pub fn read(input: &[u8]) -> Result<EntityTag, Refusal> {
    let parsed = read_header(grammar(), input, no_limits)?;
    let opaque = parsed.first(OPAQUE).unwrap_or_default();
    Ok(EntityTag { weak: parsed.first(WEAK).is_some(), opaque })
}

/// Neither is weak and the quoted bytes are the same as sent.
pub fn strong_match(first: &[u8], second: &[u8]) -> Result<bool, Refused> {
    let (one, other) = read_both(read, first, second)?;
    Ok(!one.weak && !other.weak && one.opaque.of(first) == other.opaque.of(second))
}

/// The quoted bytes alone.
pub fn weak_match(first: &[u8], second: &[u8]) -> Result<bool, Refused> {
    let (one, other) = read_both(read, first, second)?;
    Ok(one.opaque.of(first) == other.opaque.of(second))
}
