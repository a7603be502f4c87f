//! Delta-seconds (RFC 2616 3.3.2), capped by request (iii).

use crate::grammar::{part, Grammar, Name};
use crate::rules::{digits, number_capped, Capped};
use crate::{no_limits, read_header, Refusal};
use std::sync::OnceLock;

pub const SECONDS_LIMIT: u64 = 2_147_483_647;
/// What stands for more than the limit (RFC 2616 14.6).
pub const SECONDS_CAP: u64 = 2_147_483_648;
const SECONDS: Name = "seconds";

#[derive(Clone, Copy, Debug, PartialEq, Eq)]
pub struct Seconds {
    pub value: u32,
    /// Whether more than the limit was sent, so that the value is the cap.
    pub capped: bool,
}

pub fn grammar() -> &'static Grammar {
    static GRAMMAR: OnceLock<Grammar> = OnceLock::new();
    GRAMMAR.get_or_init(|| part(SECONDS, digits()))
}

pub fn read(input: &[u8]) -> Result<Seconds, Refusal> {
    let parsed = read_header(grammar(), input, no_limits)?;
    let span = parsed.first(SECONDS).unwrap_or_default();
    let Capped { value, capped } = number_capped(input, span, SECONDS_LIMIT, SECONDS_CAP);
    Ok(Seconds { value: value as u32, capped })
}
