//! Trailers whose names are those that no trailer may hold, or nearly.

use super::Rng;
use crate::chunked::FORBIDDEN_FIELDS;

/// Of so many first letters every pattern of letter case is given.
const CASED: usize = 7;
/// How many random patterns of a whole name are given.
const RANDOM: usize = 16;
/// What makes a forbidden name another one when it stands behind it.
const FURTHER: &[&str] = &["-", "s", "S", "2", "y", "_", ".", "r", "Trailer", "-Trailer"];
/// Names that have a forbidden one in them, or parts of two.
const OTHERS: &[&str] = &[
    "X-Trailer",
    "XTrailer",
    "-Trailer",
    "TTrailer",
    "TrailerContent-Length",
    "Content_Length",
    "ContentLength",
    "Content-Type",
    "Content-Encoding",
    "Transfer-Length",
    "Trailer-Encoding",
    "Transferencoding",
    "Trainer",
    "TE",
    "ETag",
];
/// What may stand behind a name, well-formed or not.
const BEHIND: &[&[u8]] =
    &[b":", b"", b"\r", b"\n", b" ", b" :", b"\t:", b"\r\n\r\n", b"\0", b"::\r\n", b": Trailer:\r\n\r\n"];
/// What may stand before the name's line: a last chunk, with names in its extensions, in values and in data.
const BEFORE: &[&[u8]] = &[
    b"0\r\n",
    b"0\r\nA:b\r\nETag: \"x\"\r\n",
    b"000;Trailer;content-length=Transfer-Encoding\r\nA: Trailer:\tTrailer:\r\n",
    b"8\r\nTrailer:\r\n0\r\nTrailers:\r\nTrailer-:\r\n",
];
const VALUES: &[&[u8]] =
    &[b"", b" x", b"Trailer:", b" Content-Length: 5", b"\t\xff:transfer-encoding:", b":"];

/// The name in a random pattern of letter case.
fn random_case(name: &str, rng: &mut Rng) -> Vec<u8> {
    let flip = |byte: u8| if rng.once_in(2) { byte.to_ascii_uppercase() } else { byte.to_ascii_lowercase() };
    name.bytes().map(flip).collect()
}

/// One of the names that no trailer may hold, in any letter case.
pub fn forbidden_name(rng: &mut Rng) -> Vec<u8> {
    let name = rng.pick(&FORBIDDEN_FIELDS);
    random_case(name, rng)
}

/// A name that is none of those: a beginning of one, one and more bytes, or another that looks like one.
pub fn allowed_name(rng: &mut Rng) -> Vec<u8> {
    let name = rng.pick(&FORBIDDEN_FIELDS);
    let spelled = match rng.below(3) {
        0 => name[..1 + rng.below(name.len() - 1)].to_string(),
        1 => format!("{name}{}", rng.pick(FURTHER)),
        _ => rng.pick(OTHERS).to_string(),
    };
    random_case(&spelled, rng)
}

/// A trailer line with this name and some value.
pub fn named_line(name: &[u8], rng: &mut Rng) -> Vec<u8> {
    [name, b":", rng.pick(VALUES), b"\r\n"].concat()
}

/// The forbidden names: every letter case of the first letters, and random ones of all letters.
pub fn forbidden_names(rng: &mut Rng) -> Vec<Vec<u8>> {
    let mut names = Vec::new();
    for name in FORBIDDEN_FIELDS {
        for pattern in 0..1_usize << CASED {
            let flip = |(at, byte): (usize, u8)| if pattern >> at & 1 == 1 { byte ^ 0x20 } else { byte };
            let (cased, rest) = name.split_at(CASED);
            names.push(cased.bytes().enumerate().map(flip).chain(rest.bytes()).collect());
        }
        names.extend((0..RANDOM).map(|_| random_case(name, rng)));
    }
    names
}

/// Names that no rule forbids: the beginnings of the forbidden ones, what goes on behind them, and others like them.
pub fn allowed_names() -> Vec<Vec<u8>> {
    let beginnings =
        FORBIDDEN_FIELDS.iter().flat_map(|name| (1..name.len()).map(|end| name[..end].to_string()));
    let longer =
        FORBIDDEN_FIELDS.iter().flat_map(|name| FURTHER.iter().map(move |more| format!("{name}{more}")));
    let others = OTHERS.iter().map(|name| name.to_string());
    let names = beginnings.chain(longer).chain(others);
    names.flat_map(|name| [name.to_ascii_lowercase(), name]).map(String::into_bytes).collect()
}

/// Beginnings of bodies whose last trailer line has the name, in every place and with everything behind it.
pub fn trailers_with(name: &[u8]) -> Vec<Vec<u8>> {
    let before = BEFORE.iter().flat_map(|before| BEHIND.iter().map(move |behind| (before, behind)));
    before.map(|(before, behind)| [before, name, behind].concat()).collect()
}

/// A forbidden name with each byte in each place of it, or behind it: "0" CRLF, the name, a colon.
pub fn trailers_with_each_byte() -> Vec<Vec<u8>> {
    let mut inputs = Vec::new();
    for name in FORBIDDEN_FIELDS {
        let places = (0..=name.len()).flat_map(|place| (0..=u8::MAX).map(move |byte| (place, byte)));
        for (place, byte) in places {
            let (front, rest) = name.as_bytes().split_at(place);
            let rest = rest.get(1..).unwrap_or_default();
            inputs.push([b"0\r\n", front, &[byte], rest, b":"].concat());
        }
    }
    inputs
}

/// A body without data and with one to five trailer lines, each with a forbidden name or one like it.
pub fn body_with_names(rng: &mut Rng) -> Vec<u8> {
    let mut input = b"0\r\n".to_vec();
    for _ in 0..1 + rng.below(5) {
        let name = if rng.once_in(4) { forbidden_name(rng) } else { allowed_name(rng) };
        input.extend(named_line(&name, rng));
    }
    input.extend_from_slice(b"\r\n");
    input
}
