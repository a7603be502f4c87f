//! The examples of document 01 and of RFC 2616 section 3, as written there, and cases beside them; years of two digits
//! by request (ii), seconds by request (iii), byte ranges by request (iv), charsets by request (v) and trailers by
//! request (xii) of document 02.

mod common;

use common::{at, lend, whole};
use quizotepec::{
    chunked_decode, chunked_encode, content_range_write, date_read, date_write, delta_read, etag_read,
    etag_strong_match, etag_weak_match, language_equal, language_read, media_charset,
    media_charset_assuming_iso_8859_1, media_equal, media_read, products_read, qvalue_read, qvalue_write,
    ranges_read, url_equal, url_read, version_compare, version_read, version_write, Charset, Date, Decoded,
    EntityTag, LanguageTag, Parameter, Pieces, Products, Range, Ranges, Refusal, Refused, Seconds, Span, Url,
    Version, Which, FIRST_PRESENT_YEAR, LAST_PRESENT_YEAR,
};
use std::cmp::Ordering;

const AMPLE: usize = 64;
const LINE_LIMIT: usize = 1_024;
const TRAILER_LIMIT: usize = 8_192;

fn no<T>(number: u8, place: usize) -> Result<T, Refusal> {
    Err(at(number, place))
}

#[test]
fn versions() {
    assert_eq!(version_compare(b"HTTP/2.4", b"HTTP/2.13"), Ok(Ordering::Less));
    assert_eq!(version_compare(b"HTTP/2.13", b"HTTP/12.3"), Ok(Ordering::Less));
    assert_eq!(version_compare(b"HTTP/12.3", b"HTTP/2.4"), Ok(Ordering::Greater));
    assert_eq!(version_compare(b"HTTP/01.1", b"http/1.1"), Ok(Ordering::Equal));
    let second = Refused { which: Which::Second, refusal: Refusal::Malformed { place: 6 } };
    assert_eq!(version_compare(b"HTTP/1.1", b"HTTP/1"), Err(second));
    assert_eq!(version_read(b"HTTP/01.1"), Ok(Version { major: 1, minor: 1 }));
    assert_eq!(version_read(b"HTTP/65536.0"), no(2, 9));
    let write = |major, room| {
        lend(
            room,
            |out| version_write(Version { major, minor: 1 }, out),
            |answer| answer.map_or(Vec::new(), |_| b"HTTP/1.1".to_vec()),
        )
    };
    assert_eq!(write(1, AMPLE), Ok(8));
    assert_eq!(write(1, 7), no(8, 0));
    assert_eq!(write(65_536, 0), no(9, 0));
}

#[test]
fn seconds() {
    let exact = |value| Ok(Seconds { value, capped: false });
    let capped = Ok(Seconds { value: 2_147_483_648, capped: true });
    assert_eq!(delta_read(b"2147483647"), exact(2_147_483_647));
    assert_eq!(delta_read(b"0002147483647"), exact(2_147_483_647));
    assert_eq!(delta_read(b"2147483648"), capped);
    assert_eq!(delta_read(b"0002147483648"), capped);
    assert_eq!(delta_read(b"18446744073709551616"), capped);
    assert_eq!(delta_read(&[b'9'; 1_000]), capped);
    assert_eq!(delta_read(&[b'9'; 8_192]), capped);
    assert_eq!(delta_read(&[b'0'; 8_192]), exact(0));
    assert_eq!(delta_read(&[&[b'0'; 8_182][..], b"2147483647"].concat()), exact(2_147_483_647));
    assert_eq!(delta_read(b""), no(1, 0));
    assert_eq!(delta_read(b"99999999999x"), no(1, 11));
    for digit in [b'0', b'9'] {
        assert_eq!(delta_read(&[digit; 8_193]), no(13, 8_192));
    }
}

/// The largest length of an entity.
const LENGTH_LIMIT: u64 = (1 << 63) - 1;

fn range(first: u64, last: u64) -> Range {
    Range { first, last }
}

/// The ranges that are left in an entity of so many bytes; none where the set is unsatisfiable.
fn ranges_in(entity_length: u64, value: &str) -> Result<Vec<Range>, Refusal> {
    let ranges = ranges_read(value.as_bytes(), entity_length)?;
    Ok(match ranges {
        Ranges::Satisfiable(set) => {
            assert!(!set.ranges().is_empty(), "{value}");
            set.ranges().to_vec()
        }
        Ranges::Unsatisfiable => Vec::new(),
    })
}

/// The examples of RFC 2616 14.35.1 in an entity of 10,000 bytes, and cases of the request.
#[test]
fn ranges() {
    for (value, expected) in [
        ("bytes=0-499", &[range(0, 499)][..]),
        ("bytes=500-999", &[range(500, 999)]),
        ("bytes=-500", &[range(9_500, 9_999)]),
        ("bytes=9500-", &[range(9_500, 9_999)]),
        ("bytes=0-0,-1", &[range(0, 0), range(9_999, 9_999)]),
        ("bytes=500-600,601-999", &[range(500, 600), range(601, 999)]),
        ("bytes=500-700,601-999", &[range(500, 700), range(601, 999)]),
        ("bytes=-1,0-0", &[range(9_999, 9_999), range(0, 0)]),
        ("bytes=1-2 , 3-4", &[range(1, 2), range(3, 4)]),
        ("bytes=1-2\t,\t \t3-4", &[range(1, 2), range(3, 4)]),
        ("BYTES=0-", &[range(0, 9_999)]),
        ("byTes=007-0000000000000000000000008", &[range(7, 8)]),
        // "a last beyond the end is cut, a longer suffix is the whole entity, an empty range is left out"
        ("bytes=9999-10000", &[range(9_999, 9_999)]),
        ("bytes=0-99999999999999999999", &[range(0, 9_999)]),
        ("bytes=-10001", &[range(0, 9_999)]),
        ("bytes=-99999999999999999999", &[range(0, 9_999)]),
        ("bytes=10000-,5-5,-0,20000-30000", &[range(5, 5)]),
        ("bytes=20000-", &[]),
        ("bytes=10000-10000", &[]),
        ("bytes=-0", &[]),
        // Both are capped before they are compared.
        ("bytes=99999999999999999999-99999999999999999998", &[]),
        ("bytes=9223372036854775808-9223372036854775807", &[]),
    ] {
        assert_eq!(ranges_in(10_000, value), Ok(expected.to_vec()), "{value}");
    }
}

#[test]
fn entity_lengths() {
    for value in ["bytes=0-0", "bytes=0-", "bytes=-1", "bytes=-0", "bytes=5-,0-499 ,-99999999999999999999"] {
        assert_eq!(ranges_in(0, value), Ok(vec![]), "{value}");
    }
    assert_eq!(ranges_in(1, "bytes=0-,-1,1-"), Ok(vec![range(0, 0), range(0, 0)]));
    let last = LENGTH_LIMIT - 1;
    assert_eq!(ranges_in(LENGTH_LIMIT, "bytes=-1,0-"), Ok(vec![range(last, last), range(0, last)]));
    let value = "bytes=9223372036854775806-9223372036854775808,9223372036854775807-";
    assert_eq!(ranges_in(LENGTH_LIMIT, value), Ok(vec![range(last, last)]));
    // "An entity length above it is refusal 9, first of all."
    for entity_length in [1 << 63, u64::MAX] {
        for value in ["bytes=0-499", "bytes=5-3", "", &"b".repeat(8_193)] {
            assert_eq!(ranges_in(entity_length, value), no(9, 0), "{entity_length}");
        }
    }
}

#[test]
fn malformed_ranges() {
    for (value, place) in [
        ("bytes= 1-2", 6),
        ("bytes=1-2,", 10),
        ("bytes=1-2 ", 10),
        ("bytes=1-2 3-4", 10),
        ("bytes=1-2,,3-4", 10),
        ("bytes=1-2, ,3-4", 11),
        ("bytes=,1-2", 6),
        ("bytes=1 -2", 7),
        ("bytes=1- 2", 9),
        ("bytes=--1", 7),
        ("bytes=1-2-3", 9),
        ("bytes=-", 7),
        ("bytes=5", 7),
        ("bytes=", 6),
        ("bytes =1-2", 5),
        ("byte=1-2", 4),
        ("", 0),
        // "A last below its first, once its digits end, is malformed at its last digit, whatever follows."
        ("bytes=5-3", 8),
        ("bytes=5-3x", 8),
        ("bytes=5-3,", 8),
        ("bytes=5-03,17", 9),
        ("bytes=1-2,50-30", 14),
        ("bytes=9223372036854775807-9223372036854775806", 44),
    ] {
        assert_eq!(ranges_in(10_000, value), no(1, place), "{value}");
    }
    // 3 is not its last digit.
    assert_eq!(ranges_in(10_000, "bytes=5-30"), Ok(vec![range(5, 30)]));
    assert_eq!(ranges_in(10_000, &format!("bytes=0-{}", "0".repeat(8_184))), Ok(vec![range(0, 0)]));
    assert_eq!(ranges_in(10_000, &format!("bytes=0-{}", "0".repeat(8_185))), no(13, 8_192));
}

/// "up to 16 (a seventeenth is refusal 10 at its first byte)": left out or not, each element counts.
#[test]
fn range_limit() {
    let sixteen = format!("bytes=20000-{}", " ,\t-1".repeat(15));
    let place = sixteen.len() + 1;
    assert_eq!(ranges_in(10_000, &sixteen), Ok(vec![range(9_999, 9_999); 15]));
    assert_eq!(ranges_in(10_000, &format!("bytes=1-2{}", ",1-2".repeat(15))), Ok(vec![range(1, 2); 16]));
    for tail in ["1-2", "-", "5-3", "1x", "20000-"] {
        assert_eq!(ranges_in(10_000, &format!("{sixteen},{tail}")), no(10, place), "{tail}");
        assert_eq!(ranges_in(10_000, &format!("{sixteen}, {tail}")), no(10, place + 1), "{tail}");
    }
    for tail in ["", ",", "x"] {
        assert_eq!(ranges_in(10_000, &format!("{sixteen},{tail}")), no(1, place), "{tail}");
    }
}

#[test]
fn content_ranges() {
    let write = |first, last, entity_length, room, text: &str| {
        lend(room, |out| content_range_write(range(first, last), entity_length, out), |_| text.into())
    };
    let last = LENGTH_LIMIT - 1;
    let longest = "bytes 9223372036854775806-9223372036854775806/9223372036854775807";
    for (first, last, entity_length, text) in [
        (0, 499, 1_234, "bytes 0-499/1234"),
        (500, 999, 1_234, "bytes 500-999/1234"),
        (500, 1_233, 1_234, "bytes 500-1233/1234"),
        (734, 1_233, 1_234, "bytes 734-1233/1234"),
        (0, 0, 1, "bytes 0-0/1"),
        (9, 10, 100, "bytes 9-10/100"),
        (last, last, LENGTH_LIMIT, longest),
    ] {
        assert_eq!(write(first, last, entity_length, AMPLE + 1, text), Ok(text.len()));
        assert_eq!(write(first, last, entity_length, text.len(), text), Ok(text.len()));
        assert_eq!(write(first, last, entity_length, text.len() - 1, ""), no(8, 0));
        assert_eq!(write(first, last, entity_length, 0, ""), no(8, 0));
    }
    for (first, last, entity_length) in [
        (1, 0, 1_234),
        (0, 1_234, 1_234),
        (0, 0, 0),
        (0, 0, LENGTH_LIMIT + 1),
        (0, 0, u64::MAX),
        (0, u64::MAX, u64::MAX),
        (u64::MAX, 0, 1),
    ] {
        for room in [0, AMPLE] {
            assert_eq!(write(first, last, entity_length, room, ""), no(9, 0));
        }
    }
}

#[test]
fn qvalues() {
    assert_eq!(qvalue_read(b"0."), Ok(0));
    assert_eq!(qvalue_read(b"1.001"), no(1, 4));
    assert_eq!(qvalue_read(b"0.1234"), no(1, 5));
    for (thousandths, text) in [(500, "0.5"), (0, "0"), (1000, "1")] {
        let answer = lend(AMPLE, |out| qvalue_write(thousandths, out), |_| text.into());
        assert_eq!(answer, Ok(text.len()));
    }
    assert_eq!(lend(AMPLE, |out| qvalue_write(1001, out), |_| Vec::new()), no(9, 0));
}

#[test]
fn bodies() {
    let decode =
        |input: &[u8], room, data: &[u8]| lend(room, |out| chunked_decode(input, out), |_| data.to_vec());
    let refused = |number, place| Decoded::Refused(at(number, place));
    assert_eq!(decode(b"0\r\n\r\n", 0, b""), whole(5, 0));
    assert_eq!(decode(b"1", 0, b""), refused(7, 0));
    assert_eq!(decode(b"", 0, b""), Decoded::More);
    assert_eq!(decode(b"5\r\nhello\r\n0\r\n\r\n", AMPLE, b"hello"), whole(15, 5));
    assert_eq!(decode(b"5\r\n", AMPLE, b""), Decoded::More);
    assert_eq!(decode(b"5\rX", AMPLE, b""), refused(1, 2));
    assert_eq!(decode(b"FFFF", 16_384, b""), refused(7, 3));
    assert_eq!(decode(&[b'0'; LINE_LIMIT], 0, b""), Decoded::More);
    assert_eq!(decode(&[b'0'; LINE_LIMIT + 1], 0, b""), refused(5, LINE_LIMIT));
}

/// The answer of both readers, which write these data.
fn read(input: &[u8], data: &[u8]) -> Decoded {
    let answer = lend(AMPLE, |out| chunked_decode(input, out), |_| data.to_vec());
    let in_pieces = lend(AMPLE, |out| Pieces::new(out).feed(input).answer, |_| data.to_vec());
    assert_eq!(in_pieces, answer, "{input:?}");
    answer
}

#[test]
fn trailers() {
    let whole = |taken, length, start, lines| Decoded::Whole { taken, length, trailer: span(start, lines) };
    assert_eq!(read(b"0\r\n\r\n", b""), whole(5, 0, 3, 0));
    assert_eq!(read(b"0\r\nA:b\r\n\r\n", b""), whole(10, 0, 3, 5));
    assert_eq!(read(b"5\r\nhello\r\n0\r\nETag: \"x\"\r\n\r\n", b"hello"), whole(26, 5, 13, 11));
    assert_eq!(read(b"000;a=b\r\nA:\r\nB:c\r\n\r\nD:", b""), whole(20, 0, 9, 9));
    // What looks like a trailer inside data is data.
    assert_eq!(read(b"7\r\n0\r\nA:\r\n\r\n0\r\nB:\r\n\r\n", b"0\r\nA:\r\n"), whole(21, 7, 15, 4));
    assert_eq!(read(b"8\r\nTrailer:\r\n0\r\n\r\n", b"Trailer:"), whole(18, 8, 16, 0));
}

/// "These names, letter case ignored, are new refusal 15 at the colon".
#[test]
fn names_in_trailers() {
    let refused = |number, place| Decoded::Refused(at(number, place));
    let whole = |taken, lines| Decoded::Whole { taken, length: 0, trailer: span(3, lines) };
    for (lines, answer) in [
        ("trailer:", refused(15, 10)),
        ("Trailer", Decoded::More),
        ("Trailer :", refused(1, 10)),
        ("Trailer\r", refused(1, 10)),
        ("TRANSFER-encoding: x", refused(15, 20)),
        ("content-LENGTH: 5\r\n\r\n", refused(15, 17)),
        ("A:b\r\nTrailer:\r\nTrailer:\r\n\r\n", refused(15, 15)),
        ("Trailers:\r\nTrailer:", refused(15, 21)),
        ("Content-Length2: 1\r\n\r\n", whole(25, 20)),
        ("Content-Lengt:\r\n\r\n", whole(21, 16)),
        ("X-Trailer:\r\n\r\n", whole(17, 12)),
        ("A:Trailer:\r\n\r\n", whole(17, 12)),
        ("\r\nTrailer:", whole(5, 0)),
    ] {
        assert_eq!(read(format!("0\r\n{lines}").as_bytes(), b""), answer, "{lines:?}");
    }
}

/// At one byte 6 comes before 15: the name's colon is the trailer's byte 8,192 or 8,193, counted from 1.
#[test]
fn names_at_the_trailer_limit() {
    for (byte, number) in [(TRAILER_LIMIT, 15), (TRAILER_LIMIT + 1, 6)] {
        let value = "b".repeat(byte - "A:\r\nTrailer:".len());
        let input = format!("0\r\nA:{value}\r\nTrailer:");
        assert_eq!(read(input.as_bytes(), b""), Decoded::Refused(at(number, 3 + byte - 1)));
    }
}

#[test]
fn frames() {
    let frame = b"2\r\nhe\r\n2\r\nll\r\n1\r\no\r\n0\r\n\r\n";
    assert_eq!(lend(AMPLE, |out| chunked_encode(b"hello", 2, out), |_| frame.to_vec()), Ok(25));
    assert_eq!(lend(24, |out| chunked_encode(b"hello", 2, out), |_| Vec::new()), no(8, 0));
    assert_eq!(lend(0, |out| chunked_encode(b"hello", 0, out), |_| Vec::new()), no(9, 0));
}

#[test]
fn tags() {
    assert_eq!(language_read(b"en-cockney"), Ok(LanguageTag { parts: 2, primary: 2 }));
    assert_eq!(language_read(b"abcdefghi"), no(1, 8));
    assert_eq!(language_equal(b"en-US", b"EN-us"), Ok(true));
    assert_eq!(language_equal(b"en-US", b"en"), Ok(false));
    let first = Refused { which: Which::First, refusal: Refusal::Malformed { place: 3 } };
    assert_eq!(language_equal(b"en-", b"-"), Err(first));
    assert_eq!(etag_read(b"w/\"xyzzy\""), Ok(EntityTag { weak: true, opaque: span(3, 5) }));
    assert_eq!(etag_read(b"\"\""), Ok(EntityTag { weak: false, opaque: span(1, 0) }));
    assert_eq!(etag_read(b"W/"), no(1, 2));
    assert_eq!(etag_strong_match(b"\"a\"", b"\"a\""), Ok(true));
    assert_eq!(etag_strong_match(b"W/\"a\"", b"W/\"a\""), Ok(false));
    assert_eq!(etag_weak_match(b"W/\"a\"", b"\"a\""), Ok(true));
    assert_eq!(etag_weak_match(b"W/\"a\"", b"\"A\""), Ok(false));
}

/// "With 2019 the old results return."
const OLD_RESULTS_YEAR: u32 = 2019;

fn date(text: &str) -> Result<Date, Refusal> {
    date_read(text.as_bytes(), OLD_RESULTS_YEAR)
}

#[test]
fn dates() {
    let rfc = Date { year: 1994, month: 11, day: 6, hour: 8, minute: 49, second: 37, seconds: 784_111_777 };
    let grammar = Date { year: 1982, month: 6, day: 2, hour: 0, minute: 0, second: 0, seconds: 391_824_000 };
    for (text, expected) in [
        ("Sun, 06 Nov 1994 08:49:37 GMT", rfc),
        ("Sunday, 06-Nov-94 08:49:37 GMT", rfc),
        ("Sun Nov  6 08:49:37 1994", rfc),
        ("Sun Nov 06 08:49:37 1994", rfc),
        ("Wed, 02 Jun 1982 00:00:00 GMT", grammar),
        ("Wednesday, 02-Jun-82 00:00:00 GMT", grammar),
        ("Wed Jun  2 00:00:00 1982", grammar),
    ] {
        assert_eq!(date(text), Ok(expected), "{text}");
    }
    for (text, number, place) in [
        ("Mon, 06 Nov 1994 08:49:37 GMT", 4, 0),
        ("Thu, 29 Feb 1900 00:00:00 GMT", 3, 0),
        ("Fri, 31 Dec 1582 23:59:59 GMT", 3, 0),
        ("Mon, 06 Nov 1994 24:00:00 GMT", 3, 0),
        ("Sun, 06 Nov 1994 08:49:37 gmt", 1, 26),
        ("Sun Nov 6 08:49:37 1994", 1, 9),
        ("Sun, 06 Nov 1994 08:49:37 GMT ", 1, 29),
        ("Sun, 06 Nov", 1, 11),
        ("", 1, 0),
    ] {
        assert_eq!(date(text), no(number, place), "{text}");
    }
    let seconds = |text: &str| date(text).map(|date| (date.year, date.seconds));
    assert_eq!(seconds("Tuesday, 31-Dec-69 00:00:00 GMT"), Ok((2069, 3_155_673_600)));
    assert_eq!(seconds("Thursday, 01-Jan-70 00:00:00 GMT"), Ok((1970, 0)));
    assert_eq!(date_read(&[b'S'; 8_193], OLD_RESULTS_YEAR), no(13, 8_192));
}

fn year(present_year: u32, text: &str) -> Result<u32, Refusal> {
    date_read(text.as_bytes(), present_year).map(|date| date.year)
}

/// "the year from Y-49 to Y+50 with those digits": its two ends.
#[test]
fn years_of_two_digits() {
    for (present_year, text, expected) in [
        (2026, "Wednesday, 01-Jan-76 00:00:00 GMT", 2076),
        (2026, "Saturday, 01-Jan-77 00:00:00 GMT", 1977),
        (1994, "Friday, 01-Jan-44 00:00:00 GMT", 2044),
        (1994, "Monday, 01-Jan-45 00:00:00 GMT", 1945),
        (2019, "Tuesday, 31-Dec-69 23:59:59 GMT", 2069),
        (2019, "Thursday, 01-Jan-70 00:00:00 GMT", 1970),
        (1632, "Thursday, 01-Jan-82 00:00:00 GMT", 1682),
        (1632, "Saturday, 01-Jan-83 00:00:00 GMT", 1583),
        (9949, "Friday, 31-Dec-99 23:59:59 GMT", 9999),
        (9949, "Monday, 01-Jan-00 00:00:00 GMT", 9900),
    ] {
        assert_eq!(year(present_year, text), Ok(expected), "{text} in {present_year}");
    }
}

/// "Day names are checked against the chosen year."
#[test]
fn day_names_of_the_chosen_year() {
    for (present_year, text, answer) in [
        // 1977 until 2026, and 2077 from 2027 on.
        (2026, "Saturday, 01-Jan-77 00:00:00 GMT", Ok(1977)),
        (2027, "Saturday, 01-Jan-77 00:00:00 GMT", no(4, 0)),
        (2026, "Friday, 01-Jan-77 00:00:00 GMT", no(4, 0)),
        (2027, "Friday, 01-Jan-77 00:00:00 GMT", Ok(2077)),
        // 400 years have whole weeks.
        (2426, "Saturday, 01-Jan-77 00:00:00 GMT", Ok(2377)),
        // 2000 has a 29 February; 1900 has none, whatever the name.
        (2019, "Tuesday, 29-Feb-00 00:00:00 GMT", Ok(2000)),
        (1850, "Tuesday, 29-Feb-00 00:00:00 GMT", no(3, 0)),
        (1850, "Thursday, 29-Feb-00 00:00:00 GMT", no(3, 0)),
        (1850, "Thursday, 01-Mar-00 00:00:00 GMT", Ok(1900)),
        (1850, "Wednesday, 01-Mar-00 00:00:00 GMT", no(4, 0)),
        (2019, "Wednesday, 01-Mar-00 00:00:00 GMT", Ok(2000)),
    ] {
        assert_eq!(year(present_year, text), answer, "{text} in {present_year}");
    }
}

/// "Y is 1632 to 9949, otherwise refusal 9 before anything is read."
#[test]
fn present_years() {
    let forms =
        ["Sun, 06 Nov 1994 08:49:37 GMT", "Sunday, 06-Nov-94 08:49:37 GMT", "Sun Nov  6 08:49:37 1994"];
    let long = "S".repeat(8_193);
    assert_eq!((FIRST_PRESENT_YEAR, LAST_PRESENT_YEAR), (1632, 9949));
    for present_year in [0, 1, 94, 1582, 1583, 1631, 9950, 9999, 10_000, 65_536 + 2_019, u32::MAX] {
        for text in forms.into_iter().chain(["", "S", "Mon, 06 Nov 1994 08:49:37 GMT", "\0", &long]) {
            assert_eq!(year(present_year, text), no(9, 0), "{} bytes in {present_year}", text.len());
        }
    }
    for present_year in [1632, 1633, 9948, 9949] {
        assert_eq!(year(present_year, forms[0]), Ok(1994));
        assert_eq!(year(present_year, forms[2]), Ok(1994));
        assert_eq!(year(present_year, &long), no(13, 8_192));
        assert_eq!(year(present_year, "S"), no(1, 1));
    }
}

#[test]
fn instants() {
    let write = |seconds, room, text: &str| lend(room, |out| date_write(seconds, out), |_| text.into());
    for (seconds, text) in [
        (784_111_777, "Sun, 06 Nov 1994 08:49:37 GMT"),
        (-1, "Wed, 31 Dec 1969 23:59:59 GMT"),
        (951_782_400, "Tue, 29 Feb 2000 00:00:00 GMT"),
        (-12_212_553_600, "Sat, 01 Jan 1583 00:00:00 GMT"),
        (253_402_300_799, "Fri, 31 Dec 9999 23:59:59 GMT"),
    ] {
        assert_eq!(date(text).map(|date| date.seconds), Ok(seconds));
        assert_eq!(write(seconds, 29, text), Ok(29));
        assert_eq!(write(seconds, 30, text), Ok(29));
        assert_eq!(write(seconds, 28, ""), no(8, 0));
    }
    for seconds in [-12_212_553_601, 253_402_300_800, i64::MIN, i64::MAX] {
        assert_eq!(write(seconds, AMPLE, ""), no(9, 0));
        assert_eq!(write(seconds, 0, ""), no(9, 0));
    }
}

fn span(start: usize, length: usize) -> Span {
    Span { start, length }
}

#[test]
fn media_types() {
    let read = |text: &str| media_read(text.as_bytes()).map(|m| (m.main, m.subtype, m.parameters().to_vec()));
    let parameter = |attribute, value, quoted| Parameter { attribute, value, quoted };
    let parameters = |list: &[Parameter]| Ok((span(0, 4), span(5, 4), list.to_vec()));
    let charset = parameter(span(11, 7), span(19, 10), false);
    assert_eq!(read("text/html; charset=ISO-8859-4"), parameters(&[charset]));
    let charset = parameter(span(13, 7), span(22, 6), true);
    let q = parameter(span(31, 1), span(34, 0), true);
    assert_eq!(read("text/html \t; charset=\"utf\\-8\" ;q=\"\""), parameters(&[charset, q]));
    for text in ["multipart/byteranges", "multipart/mixed", "multipart/form-data", "!/~"] {
        assert_eq!(read(text).map(|(_, _, parameters)| parameters), Ok(vec![]), "{text}");
    }
    for (text, number, place) in [
        ("text/html ", 1, 10),
        ("text /html", 1, 4),
        ("text/ html", 1, 5),
        ("text/html;charset =x", 1, 17),
        ("text/html;charset= x", 1, 18),
        ("a/b;x=1;X=2", 11, 9),
        ("a/b;x=1;X", 1, 9),
        ("a/b;x=\"", 1, 7),
        ("a/b;x=\"\r\"", 1, 7),
        ("a/b;x=\"1\"2", 1, 9),
        ("a/b;", 1, 4),
        ("a/b;;x=1", 1, 4),
        ("a/", 1, 2),
        ("a", 1, 1),
        ("/b", 1, 0),
        ("", 1, 0),
    ] {
        assert_eq!(read(text), no(number, place), "{text}");
    }
    let long = |length: usize| format!("a/{}", "b".repeat(length - 2));
    assert_eq!(read(&long(8_192)), Ok((span(0, 1), span(2, 8_190), vec![])));
    assert_eq!(read(&long(8_193)), no(13, 8_192));
}

#[test]
fn parameter_limit() {
    let with = |count| (0..count).fold("a/b".to_string(), |text, index| format!("{text};p{index}=v"));
    let read = |text: String| media_read(text.as_bytes()).map(|m| m.parameters().len());
    let sixteen = with(16);
    let place = sixteen.len() + 1;
    assert_eq!(read(sixteen.clone()), Ok(16));
    assert_eq!(read(with(17)), no(10, place));
    for tail in ["q", "p0=v", "P0=v", "q=\u{1}"] {
        assert_eq!(read(format!("{sixteen};{tail}")), no(10, place), "{tail}");
    }
    assert_eq!(read(format!("{sixteen};")), no(1, place));
    assert_eq!(read(format!("{};P0=v", with(15))), no(11, with(15).len() + 3));
}

#[test]
fn equal_media_types() {
    let html = "text/html;charset=\"utf-8\"";
    for (first, second, equal) in [
        (html, "TEXT/HTML ; Charset=UTF-8", true),
        (html, "text/html", false),
        (html, "text/html;charset=utf-7", false),
        ("text/html", "text/html;charset=ISO-8859-1", false),
        ("a/b;x=1;y=2", "a/b;y=2;x=\"1\"", true),
        ("a/b;x=1;y=2", "a/b;x=1", false),
        ("a/b;x=1", "a/b;x=1;y=2", false),
        ("a/b;x=\"\\1\"", "a/b;x=1", true),
        ("a/b;x=\"\\\\\"", "a/b;x=\"\\\\\\\\\"", false),
        ("a/b;X=1", "a/b;X=2", false),
        ("a/b;x=a", "a/b;x=A", false),
        ("a/b;x=\"\"", "a/b", false),
        ("a/b", "a/c", false),
        ("a/b", "c/b", false),
    ] {
        assert_eq!(media_equal(first.as_bytes(), second.as_bytes()), Ok(equal), "{first} {second}");
    }
    let refused = |which, number, place| Err(Refused { which, refusal: at(number, place) });
    assert_eq!(media_equal(b"a/b;x=1;x=2", b"a"), refused(Which::First, 11, 9));
    assert_eq!(media_equal(b"a/b", b"a/b;"), refused(Which::Second, 1, 4));
}

#[test]
fn charsets() {
    let stated = |start, length, quoted| Ok(Charset::Stated { value: span(start, length), quoted });
    let none = Ok(Charset::NotStated);
    let by_both = [
        ("text/html; charset=ISO-8859-4", stated(19, 10, false)),
        ("TEXT/plain;charset=utf-8", stated(19, 5, false)),
        ("image/gif;CharSet=x", stated(18, 1, false)),
        ("text/html;charset=\"\"", stated(19, 0, true)),
        ("text/plain;a=b;charset=\"\"", stated(24, 0, true)),
        ("application/json", none),
        ("texts/plain", none),
        ("tex/plain", none),
        ("image/text;a=charset", none),
        ("text/plain;charset", no(1, 18)),
        ("text/plain;charset=a;Charset=b", no(11, 28)),
    ];
    for (text, charset) in by_both {
        assert_eq!(media_charset(text.as_bytes()), charset, "{text}");
        assert_eq!(media_charset_assuming_iso_8859_1(text.as_bytes()), charset, "{text}");
    }
    for text in ["text/html", "TEXT/plain;charse=x", "tExT/x;a=charset", "text/charset"] {
        assert_eq!(media_charset(text.as_bytes()), none, "{text}");
        assert_eq!(media_charset_assuming_iso_8859_1(text.as_bytes()), Ok(Charset::Latin1), "{text}");
    }
}

#[test]
fn urls() {
    let url = |host, port, path, query| Ok(Url { host, port, path, query });
    let some = |start, length| Some(span(start, length));
    let smith = b"http://abc.com:80/~smith/home.html";
    assert_eq!(url_read(smith), url(span(7, 7), 80, some(17, 17), None));
    assert_eq!(url_read(b"http://ABC.com:/%7esmith/home.html"), url(span(7, 7), 80, some(15, 19), None));
    assert_eq!(url_read(b"HTTP://a"), url(span(7, 1), 80, None, None));
    assert_eq!(url_read(b"http://a:65535/?"), url(span(7, 1), 65_535, some(14, 1), some(16, 0)));
    assert_eq!(url_read(b"http://a:65536/"), no(2, 13));
    assert_eq!(url_read(b"http://a?x"), no(1, 8));
    assert_eq!(url_read(b"http://a/#"), no(1, 9));
    assert_eq!(url_read(b"http://a/%4"), no(1, 11));
    assert_eq!(url_read(&[b'h'; 8_193]), no(13, 8_192));
    assert_eq!(url_equal(smith, b"http://ABC.com/%7Esmith/home.html"), Ok(true));
    assert_eq!(url_equal(smith, b"http://ABC.com:/%7esmith/home.html"), Ok(true));
    assert_eq!(url_equal(b"http://a", b"http://a/"), Ok(true));
    assert_eq!(url_equal(b"http://a/", b"http://a/?"), Ok(false));
    assert_eq!(url_equal(b"http://a/%2F", b"http://a/%2f"), Ok(false));
    assert_eq!(url_equal(b"http://a/%2F", b"http://a//"), Ok(false));
    assert_eq!(url_equal(b"http://a/b", b"http://a/B"), Ok(false));
    let refused = |which, number, place| Err(Refused { which, refusal: at(number, place) });
    assert_eq!(url_equal(b"http:", b""), refused(Which::First, 1, 5));
    assert_eq!(url_equal(b"http://a", b"http://a:65536"), refused(Which::Second, 2, 13));
}

#[test]
fn products() {
    let counts = |products, comments, deepest| Ok(Products { products, comments, deepest });
    assert_eq!(products_read(b"CERN-LineMode/2.15 libwww/2.17b3"), counts(2, 0, 0));
    assert_eq!(products_read(b"Apache/0.8.4"), counts(1, 0, 0));
    assert_eq!(products_read(b"a(b (c)\\))\td (e)"), counts(2, 2, 2));
    assert_eq!(products_read(b"((((((((x))))))))"), counts(0, 1, 8));
    assert_eq!(products_read(b"(((((((((x)))))))))"), no(12, 8));
    assert_eq!(products_read(b"(((((((("), no(1, 8));
    assert_eq!(products_read(b"a/"), no(1, 2));
    assert_eq!(products_read(b"a "), no(1, 2));
    assert_eq!(products_read(b" a"), no(1, 0));
    assert_eq!(products_read(b"a/b/c"), no(1, 3));
    assert_eq!(products_read(&[b'('; 8_192]), no(12, 8));
    assert_eq!(products_read(&[b'('; 8_193]), no(13, 8_192));
}
