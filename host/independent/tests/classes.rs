//! Each byte class of document 01, for all 256 bytes, through a reader that uses it.

use independent::chunked::{decode, Decoded};
use independent::{delta, etag, language, media, products, url};

const LETTERS_AND_DIGITS: &str = "abcdefghijklmnopqrstuvwxyzABCDEFGHIJKLMNOPQRSTUVWXYZ0123456789";
const TOKEN_MARKS: &str = "!#$%&'*+-.^_`|~";
const PATH_MARKS: &str = "-_.!~*'();/:@&=+$,";
const HT: u8 = 9;

fn check(name: &str, expected: impl Fn(u8) -> bool, accepts: impl Fn(u8) -> bool) {
    for byte in 0..=255 {
        assert_eq!(accepts(byte), expected(byte), "{name}, byte {byte}");
    }
}

fn is_alphanumeric_or(byte: u8, marks: &str) -> bool {
    LETTERS_AND_DIGITS.bytes().chain(marks.bytes()).any(|member| member == byte)
}

fn is_text(byte: u8) -> bool {
    matches!(byte, HT | 32..=126 | 128..=255)
}

fn is_pair_byte(byte: u8) -> bool {
    matches!(byte, HT | 32..=126)
}

fn is_whole(input: &[u8]) -> bool {
    matches!(decode(input, 1), Decoded::Whole { taken, .. } if taken == input.len())
}

#[test]
fn tokens() {
    let token = |byte| is_alphanumeric_or(byte, TOKEN_MARKS);
    check("product", token, |byte| products::read(&[byte]).is_ok_and(|read| read.products == 1));
    check("product version", token, |byte| products::read(&[b'a', b'/', byte]).is_ok());
    check("type", token, |byte| media::read(&[byte, b'/', b'b']).is_ok());
    check("subtype", token, |byte| media::read(&[b'a', b'/', byte]).is_ok());
    check("attribute", token, |byte| media::read(&[b"a/b;", &[byte][..], b"=c"].concat()).is_ok());
    check("value", token, |byte| media::read(&[b"a/b;c=", &[byte][..]].concat()).is_ok());
    check("extension", token, |byte| is_whole(&[b"0;", &[byte][..], b"\r\n\r\n"].concat()));
    check("extension value", token, |byte| is_whole(&[b"0;a=", &[byte][..], b"\r\n\r\n"].concat()));
    check("trailer name", token, |byte| is_whole(&[b"0\r\n", &[byte][..], b":\r\n\r\n"].concat()));
}

#[test]
fn quoted_strings_and_pairs() {
    let quoted = |byte| is_text(byte) && byte != b'"' && byte != b'\\';
    check("entity tag", quoted, |byte| etag::read(&[b'"', byte, b'"']).is_ok());
    check("entity tag pair", is_pair_byte, |byte| etag::read(&[b'"', b'\\', byte, b'"']).is_ok());
    check("quoted value", quoted, |byte| media::read(&[b"a/b;c=\"", &[byte][..], b"\""].concat()).is_ok());
    check("extension", quoted, |byte| is_whole(&[b"0;a=\"", &[byte][..], b"\"\r\n\r\n"].concat()));
    check("extension pair", is_pair_byte, |byte| {
        is_whole(&[b"0;a=\"\\", &[byte][..], b"\"\r\n\r\n"].concat())
    });
}

#[test]
fn comments() {
    let text = |byte| is_text(byte) && !b"()\\".contains(&byte);
    check("comment", text, |byte| products::read(&[b'(', byte, b')']).is_ok());
    check("comment pair", is_pair_byte, |byte| products::read(&[b'(', b'\\', byte, b')']).is_ok());
}

#[test]
fn blanks() {
    let blank = |byte| byte == b' ' || byte == HT;
    check("before a parameter", blank, |byte| {
        media::read(&[b"a/b", &[byte][..], b";c=d"].concat()).is_ok_and(|read| read.subtype.length == 1)
    });
    check("between products", blank, |byte| {
        products::read(&[b'a', byte, b'b']).is_ok_and(|read| read.products == 2)
    });
}

#[test]
fn urls() {
    check(
        "host",
        |byte| is_alphanumeric_or(byte, "-."),
        |byte| url::read(&[b"http://", &[byte][..]].concat()).is_ok(),
    );
    let path = |byte| is_alphanumeric_or(byte, PATH_MARKS);
    // A `?` after the path begins a query.
    check(
        "path",
        |byte| path(byte) || byte == b'?',
        |byte| url::read(&[b"http://a/", &[byte][..]].concat()).is_ok(),
    );
    check(
        "query",
        |byte| path(byte) || byte == b'?',
        |byte| url::read(&[b"http://a/?", &[byte][..]].concat()).is_ok(),
    );
    let hex = |byte| "0123456789abcdefABCDEF".bytes().any(|digit| digit == byte);
    check("first digit", hex, |byte| url::read(&[b"http://a/%", &[byte][..], b"0"].concat()).is_ok());
    check("second digit", hex, |byte| url::read(&[b"http://a/%0", &[byte][..]].concat()).is_ok());
    check(
        "port",
        |byte| byte.is_ascii_digit() || byte == b'/',
        |byte| url::read(&[b"http://a:", &[byte][..]].concat()).is_ok(),
    );
}

/// Which escapes equal their character: letters, digits and marks.
#[test]
fn escapes() {
    let unreserved = |byte| is_alphanumeric_or(byte, "-_.!~*'()");
    check("escape", unreserved, |byte| {
        let escaped = format!("http://a/%{byte:02x}").into_bytes();
        url::equal(&escaped, &[b"http://a/", &[byte][..]].concat()) == Ok(true)
    });
}

#[test]
fn digits() {
    let digit = |byte: u8| byte.is_ascii_digit();
    check("first digit of seconds", digit, |byte| delta::read(&[byte]).is_ok());
    check("digit after the cap", digit, |byte| delta::read(&[b"2147483648", &[byte][..]].concat()).is_ok());
}

#[test]
fn other_classes() {
    check("letter", |byte| byte.is_ascii_alphabetic(), |byte| language::read(&[byte]).is_ok());
    check("trailer text", is_text, |byte| is_whole(&[b"0\r\nA:", &[byte][..], b"\r\n\r\n"].concat()));
    check("chunk data", |_| true, |byte| is_whole(&[b"1\r\n", &[byte][..], b"\r\n0\r\n\r\n"].concat()));
    check("size of zero", |byte| byte == b'0', |byte| is_whole(&[&[byte][..], b"\r\n\r\n"].concat()));
}
