//! Inputs at each limit, on both sides of it; not at that of refusal 14, which takes too many bytes.

use super::dates::date_forms;
use super::Kind;
use crate::chunked::{FORBIDDEN_FIELDS, LINE_LIMIT, TRAILER_LIMIT};
use crate::date::{Date, DAY_NAMES};
use crate::delta::SECONDS_LIMIT;
use crate::media::PARAMETER_LIMIT;
use crate::products::LEVEL_LIMIT;
use crate::url::PORT_LIMIT;
use crate::version::NUMBER_LIMIT;
use crate::HEADER_LIMIT;

/// How far on each side of a limit the inputs reach.
const MARGIN: usize = 2;

/// `head`, the filler, `tail`: `length` bytes in all.
pub(super) fn padded(head: &[u8], filler: u8, tail: &[u8], length: usize) -> Vec<u8> {
    [head, &vec![filler; length - head.len() - tail.len()], tail].concat()
}

pub(super) fn around(limit: usize) -> impl Iterator<Item = usize> {
    limit - MARGIN..=limit + MARGIN
}

pub fn at_limits(kind: Kind) -> Vec<Vec<u8>> {
    if kind == Kind::Chunked {
        return [lines(), trailers(), names(), sizes()].concat();
    }
    let mut inputs = long_values(kind);
    match kind {
        Kind::Version => inputs.extend(numbers(b"HTTP/", NUMBER_LIMIT, b".1")),
        Kind::Delta => inputs.extend(seconds()),
        Kind::Date => inputs.extend(dates()),
        Kind::Url => inputs.extend(numbers(b"http://a:", PORT_LIMIT, b"/")),
        Kind::MediaType => inputs.extend(parameters()),
        Kind::Products => inputs.extend(levels()),
        _ => {}
    }
    inputs
}

/// Values of about 8,192 bytes: well-formed where the grammar allows it, then damaged near the end.
fn long_values(kind: Kind) -> Vec<Vec<u8>> {
    let shapes: &[(&[u8], u8, &[u8])] = match kind {
        Kind::Version => &[(b"HTTP/", b'0', b"1.1"), (b"HTTP/1.", b'0', b"1"), (b"HTTP/1.", b'9', b"")],
        Kind::Date => &[(b"Sun, 06 Nov 1994 08:49:37 GMT", b' ', b"")],
        Kind::Delta => &[
            (b"", b'0', b""),
            (b"", b'0', b"7"),
            (b"", b'0', b"2147483647"),
            (b"", b'0', b"2147483648"),
            (b"", b'0', b"2147483649"),
            (b"", b'9', b""),
            (b"1", b'0', b"5"),
        ],
        Kind::Qvalue => &[(b"0.", b'0', b"")],
        Kind::Language => &[(b"en-", b'a', b""), (b"en", b'-', b"")],
        Kind::EntityTag => &[(b"W/\"", b'a', b"\""), (b"\"", b'\\', b"\""), (b"\"", b'\xff', b"\"")],
        Kind::MediaType => &[(b"a/", b'b', b""), (b"a/b;c=\"", b'd', b"\""), (b"a/b", b' ', b";c=d")],
        Kind::Products => &[(b"a/", b'b', b""), (b"(", b'c', b")"), (b"a", b' ', b"b"), (b"", b'(', b"")],
        Kind::Url => &[(b"http://a/", b'b', b""), (b"http://", b'a', b""), (b"http://a/?", b'?', b"%41")],
        Kind::Chunked => &[],
    };
    let lengths = || around(HEADER_LIMIT);
    let well =
        shapes.iter().flat_map(|shape| lengths().map(|length| padded(shape.0, shape.1, shape.2, length)));
    let mut inputs: Vec<_> = well.collect();
    if kind == Kind::Language {
        inputs.extend(lengths().map(|length| b"abcdefg-".repeat(HEADER_LIMIT)[..length].to_vec()));
    }
    let damaged: Vec<_> = inputs.iter().map(|input| [&input[..input.len() - 1], b"\0"].concat()).collect();
    inputs.extend(damaged);
    inputs
}

fn numbers(head: &[u8], limit: u64, tail: &[u8]) -> Vec<Vec<u8>> {
    let near = [limit - 1, limit, limit + 1, limit * 10, limit * 10 + 9, limit * 1_000_000];
    let wrapping =
        ["18446744073709551616", "18446744073709551617", "340282366920938463463374607431768211456"];
    spelled(head, near.iter().map(u64::to_string).chain(wrapping.map(String::from)), tail)
}

/// Each number without and with leading zeros, followed by the tail, by nothing and by a wrong byte.
fn spelled(head: &[u8], numbers: impl Iterator<Item = String>, tail: &[u8]) -> Vec<Vec<u8>> {
    let spelled = numbers.flat_map(|digits| [digits.clone(), format!("000{digits}")]);
    let tails = [tail, b"", b"\0"];
    spelled.flat_map(|digits| tails.map(|tail| [head, digits.as_bytes(), tail].concat())).collect()
}

/// Seconds near the limit, seconds that wrap to few at 32, 64 or 128 bits, and many digits.
fn seconds() -> Vec<Vec<u8>> {
    let wrapping = [
        "4294967295",
        "4294967296",
        "4294967301",
        "18446744073709551615",
        "18446744073709551621",
        "340282366920938463463374607431768211455",
        "340282366920938463463374607431768211461",
    ];
    // As 2^n divides 10^n, a 1, at least n zeros and a 5 wrap to 5 at n bits.
    let many = [10, 11, 19, 20, 21, 32, 64, 128, 1_000, 4_000]
        .map(|count| ["9".repeat(count), format!("1{}5", "0".repeat(count))]);
    let digits = wrapping.map(String::from).into_iter().chain(many.into_iter().flatten());
    let mut inputs = numbers(b"", SECONDS_LIMIT, b" ");
    inputs.extend(spelled(b"", digits, b"x"));
    inputs
}

/// Each number of a date on both sides of its bounds, in every form and under every name of a day. Of the
/// two-digit years, 69 and 70 end the window of 2019, 82 and 83 that of 1632, 99 and 00 that of 9949.
fn dates() -> Vec<Vec<u8>> {
    let years = [0, 1582, 1583, 1584, 1600, 1700, 1900, 1969, 1970, 1999, 2000, 2069, 2070, 2100, 9999];
    let days =
        [(1, 0), (1, 1), (1, 31), (1, 32), (2, 28), (2, 29), (2, 30), (4, 30), (4, 31), (12, 31), (12, 32)];
    let times = [(0, 0, 0), (23, 59, 59), (24, 0, 0), (23, 60, 59), (23, 59, 60), (99, 99, 99)];
    let mut inputs = Vec::new();
    for year in years {
        for (month, day) in days {
            for (hour, minute, second) in times {
                let fields = Date { year, month, day, hour, minute, second, seconds: 0 };
                let spelled = DAY_NAMES.iter().flat_map(|name| date_forms(fields, name));
                inputs.extend(spelled.map(String::into_bytes));
            }
        }
    }
    inputs
}

fn parameters() -> Vec<Vec<u8>> {
    let mut inputs = Vec::new();
    for count in around(PARAMETER_LIMIT) {
        let text = (0..count).fold("a/b".to_string(), |text, index| format!("{text}; p{index}=\"v\""));
        for tail in ["", ";", "; ", ";z", ";z=", ";z=1", ";p0=1", ";P0", ";P0=", ";=", "\0", ";z\0"] {
            inputs.push(format!("{text}{tail}").into_bytes());
        }
    }
    inputs
}

fn levels() -> Vec<Vec<u8>> {
    let mut inputs = Vec::new();
    for level in around(LEVEL_LIMIT) {
        let (open, close) = ("(".repeat(level), ")".repeat(level));
        let less = ")".repeat(level - 1);
        let texts =
            [format!("{open}x{close}"), format!("a {open}{close}b"), format!("({close}{open}{close}")];
        inputs.extend(texts.map(String::into_bytes));
        let unbalanced =
            [open.clone(), format!("{open}{less}"), format!("{open}\0"), format!("{open}){open}")];
        inputs.extend(unbalanced.map(String::into_bytes));
    }
    inputs
}

/// Chunk lines of about 1,024 bytes, in the first chunk, a later one and the last.
fn lines() -> Vec<Vec<u8>> {
    let shapes: [(&[u8], u8, &[u8]); 6] = [
        (b"", b'0', b""),
        (b"", b'0', b"1"),
        (b"1;", b'a', b""),
        (b"1;a=\"", b'b', b"\""),
        (b"0;a=", b'b', b""),
        (b"1;a=\"", b'\\', b"\""),
    ];
    let mut inputs = Vec::new();
    for (head, filler, tail) in shapes {
        for length in around(LINE_LIMIT) {
            let line = padded(head, filler, tail, length);
            for end in [&b""[..], b"\r", b"\r\n", b"\r\n\r\n", b"\r\nx\r\n0\r\n\r\n", b"\0"] {
                inputs.push([&line, end].concat());
                inputs.push([b"2\r\nab\r\n", &line[..], end].concat());
            }
        }
    }
    inputs
}

/// Trailers of about 8,192 bytes, in one line and in several.
fn trailers() -> Vec<Vec<u8>> {
    let mut inputs = Vec::new();
    for length in around(TRAILER_LIMIT) {
        let one = padded(b"A:", b'b', b"\r\n", length);
        let several = padded(b"A:\r\nB:c\r\nD:", b'e', b"\r\nF:\r\n", length);
        let name = padded(b"", b'n', b":\r\n", length);
        for trailer in [one, several, name] {
            for tail in [&b""[..], b"\r", b"\r\n", b"A", b"A:\r\n\r\n", b"\0"] {
                inputs.push([b"0\r\n", &trailer[..], tail].concat());
                inputs.push([b"1;x\r\nq\r\n00\r\n", &trailer[..trailer.len() - 1], tail].concat());
            }
        }
    }
    inputs
}

/// Names whose colon, or what stands in its place, is about the byte 8,193 of the trailer.
fn names() -> Vec<Vec<u8>> {
    let names = FORBIDDEN_FIELDS.iter().chain(&["Trailers", "X"]);
    let ends = names.flat_map(|name| [":", "", " ", ":\r\n\r\n"].map(|behind| (name.as_bytes(), behind)));
    let mut inputs = Vec::new();
    for (name, behind) in ends {
        for number in around(TRAILER_LIMIT + 1) {
            let before = padded(b"A:\r\nB:", b'c', b"\r\n", number - 1 - name.len());
            inputs.push([b"0\r\n", &before[..], name, behind.as_bytes()].concat());
            inputs.push([b"1\r\nq\r\n0;a\r\n", &before[..], name, behind.as_bytes()].concat());
        }
    }
    inputs
}

/// Sizes near and above what 32, 64 and 128 bits hold.
fn sizes() -> Vec<Vec<u8>> {
    let digits = ["7FFFFFFF", "80000000", "FFFFFFFF", "100000000", "7FFFFFFFFFFFFFFF", "8000000000000000"];
    let wide = ["FFFFFFFFFFFFFFFF", "10000000000000000", "10000000000000001", "10000000000000005"];
    let widest = ["FFFFFFFFFFFFFFFFFFFFFFFFFFFFFFFF", "100000000000000000000000000000001"];
    let mut inputs = Vec::new();
    for digits in digits.iter().chain(&wide).chain(&widest) {
        for tail in ["", "\r\n", "\r\nx\r\n0\r\n\r\n", "\0"] {
            inputs.push(format!("{digits}{tail}").into_bytes());
            inputs.push(format!("2\r\nab\r\n000{digits}{tail}").into_bytes());
        }
    }
    inputs
}
