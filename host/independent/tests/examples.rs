//! The examples of document 01, those of RFC 2616 section 3, and cases on both sides of each line.

use independent::chunked::{decode, encode, Decoded, BODY_LIMIT, LINE_LIMIT, TRAILER_LIMIT};
use independent::date::{EARLIEST, LATEST, LENGTH, OLD_RESULTS_YEAR};
use independent::delta::Seconds;
use independent::media::{Charset, PARAMETER_LIMIT};
use independent::version::Version;
use independent::{
    bench, date, delta, etag, language, media, products, qvalue, url, version, Refusal, Refused, Span, Which,
    HEADER_LIMIT,
};
use std::cmp::Ordering;

const EMPTY_OUTPUT: usize = 0;
const AMPLE: usize = 64;
/// More digits than any machine number has.
const MANY: usize = 3_000;

fn refused<T: std::fmt::Debug>(answer: Result<T, Refusal>, number: u8, place: usize) {
    assert_eq!(answer.expect_err("a refusal"), Refusal { number, place });
}

fn which(which: Which, number: u8, place: usize) -> Refused {
    Refused { which, refusal: Refusal { number, place } }
}

#[test]
fn empty_header_values_are_malformed_at_zero() {
    refused(version::read(b""), 1, 0);
    refused(date::read(b"", OLD_RESULTS_YEAR), 1, 0);
    refused(delta::read(b""), 1, 0);
    refused(qvalue::read(b""), 1, 0);
    refused(language::read(b""), 1, 0);
    refused(etag::read(b""), 1, 0);
    refused(media::read(b""), 1, 0);
    refused(products::read(b""), 1, 0);
    refused(url::read(b""), 1, 0);
}

#[test]
fn header_values_above_the_limit() {
    let long = |count| vec![b'1'; count];
    refused(delta::read(&long(HEADER_LIMIT + 1)), 13, HEADER_LIMIT);
    assert_eq!(delta::read(&long(HEADER_LIMIT)), CAPPED);
    assert_eq!(delta::read(&vec![b'0'; HEADER_LIMIT]), seconds(0));
    refused(language::read(&long(HEADER_LIMIT + 1)), 13, HEADER_LIMIT);
    refused(language::read(&long(HEADER_LIMIT)), 1, 0);
    assert_eq!(products::read(&long(HEADER_LIMIT)).map(|answer| answer.products), Ok(1));
    refused(products::read(&long(HEADER_LIMIT + 1)), 13, HEADER_LIMIT);
    refused(date::read(&long(HEADER_LIMIT + 1), OLD_RESULTS_YEAR), 13, HEADER_LIMIT);
}

#[test]
fn versions() {
    let read = |text: &str| version::read(text.as_bytes());
    assert_eq!(read("HTTP/1.1"), Ok(Version::HTTP_1_1));
    assert_eq!(read("http/1.0"), Ok(Version::HTTP_1_0));
    assert_eq!(read("HTTP/01.1"), Ok(Version::HTTP_1_1));
    assert_eq!(read("HTTP/65535.0000065535"), Ok(Version { major: 65_535, minor: 65_535 }));
    refused(read("HTTP/65536.0"), 2, 9);
    refused(read("HTTP/65536"), 2, 9);
    refused(read("HTTP/1.99999x"), 2, 11);
    refused(read("HTP/1.1"), 1, 2);
    refused(read("HTTP/1."), 1, 7);
    refused(read("HTTP/.1"), 1, 5);
    refused(read("http/1.1 "), 1, 8);
    refused(read(" HTTP/1.1"), 1, 0);
    refused(read("HTTP/1.1\r\n"), 1, 8);
}

/// No count of digits caps a version: it is 2 at the digit that passes the limit.
#[test]
fn versions_of_many_digits() {
    let read = |text: String| version::read(text.as_bytes());
    let (zeros, nines) = ("0".repeat(MANY), "9".repeat(MANY));
    assert_eq!(read(format!("HTTP/{zeros}1.{zeros}1")), Ok(Version::HTTP_1_1));
    refused(read(format!("HTTP/{zeros}65536.0")), 2, 9 + MANY);
    refused(read(format!("HTTP/1.{zeros}65536")), 2, 11 + MANY);
    refused(read(format!("HTTP/{nines}.0")), 2, 9);
    refused(read(format!("HTTP/1.{nines}x")), 2, 11);
    refused(read(format!("HTTP/65535{zeros}.0")), 2, 10);
    refused(read(format!("HTTP/{zeros}65535x")), 1, 10 + MANY);
}

#[test]
fn version_order() {
    let compare = |one: &str, other: &str| version::compare(one.as_bytes(), other.as_bytes());
    assert_eq!(compare("HTTP/2.4", "HTTP/2.13"), Ok(Ordering::Less));
    assert_eq!(compare("HTTP/2.13", "HTTP/12.3"), Ok(Ordering::Less));
    assert_eq!(compare("HTTP/12.3", "HTTP/2.4"), Ok(Ordering::Greater));
    assert_eq!(compare("HTTP/01.1", "http/1.001"), Ok(Ordering::Equal));
    assert_eq!(compare("x", "y"), Err(which(Which::First, 1, 0)));
    assert_eq!(compare("HTTP/1.1", "HTTP/1"), Err(which(Which::Second, 1, 6)));
}

#[test]
fn version_writer() {
    assert_eq!(version::write(1, 1, 8), Ok(b"HTTP/1.1".to_vec()));
    assert_eq!(version::write(65_535, 0, AMPLE), Ok(b"HTTP/65535.0".to_vec()));
    refused(version::write(65_536, 0, EMPTY_OUTPUT), 9, 0);
    refused(version::write(0, 65_536, AMPLE), 9, 0);
    refused(version::write(1, 1, 7), 8, 0);
}

#[test]
fn date_forms() {
    let read = |text: &str| date::read(text.as_bytes(), OLD_RESULTS_YEAR);
    let seconds = |text| read(text).map(|date| date.seconds);
    assert_eq!(seconds("Sun, 06 Nov 1994 08:49:37 GMT"), Ok(784_111_777));
    assert_eq!(seconds("Sunday, 06-Nov-94 08:49:37 GMT"), Ok(784_111_777));
    assert_eq!(seconds("Sun Nov  6 08:49:37 1994"), Ok(784_111_777));
    assert_eq!(seconds("Sun Nov 06 08:49:37 1994"), Ok(784_111_777));
    assert_eq!(seconds("Wed, 02 Jun 1982 00:00:00 GMT"), Ok(391_824_000));
    assert_eq!(seconds("Wednesday, 02-Jun-82 00:00:00 GMT"), Ok(391_824_000));
    assert_eq!(seconds("Wed Jun  2 00:00:00 1982"), Ok(391_824_000));
    assert_eq!(seconds("Wed, 31 Dec 1969 23:59:59 GMT"), Ok(-1));
    assert_eq!(seconds("Thu, 01 Jan 1970 00:00:00 GMT"), Ok(0));
    assert_eq!(seconds("Tue, 29 Feb 2000 00:00:00 GMT"), Ok(951_782_400));
    assert_eq!(seconds("Sat, 01 Jan 1583 00:00:00 GMT"), Ok(EARLIEST));
    assert_eq!(seconds("Fri, 31 Dec 9999 23:59:59 GMT"), Ok(LATEST));
    refused(read("Wednesday, 31-Dec-69 00:00:00 GMT"), 4, 0);
    assert_eq!(read("Tuesday, 31-Dec-69 00:00:00 GMT").map(|date| date.year), Ok(2069));
    assert_eq!(read("Thursday, 01-Jan-70 00:00:00 GMT").map(|date| date.year), Ok(1970));
}

#[test]
fn dates_that_do_not_exist() {
    for text in [
        "Thu, 29 Feb 1900 00:00:00 GMT",
        "Sun, 06 Nov 1994 24:00:00 GMT",
        "Sun, 06 Nov 1994 23:60:00 GMT",
        "Sun, 06 Nov 1994 23:59:60 GMT",
        "Sun, 00 Nov 1994 08:49:37 GMT",
        "Sun, 31 Nov 1994 08:49:37 GMT",
        "Fri, 31 Dec 1582 23:59:59 GMT",
        "Mon, 06 Nov 0000 08:49:37 GMT",
        "Monday, 29-Feb-01 08:49:37 GMT",
        "Sun Nov  0 08:49:37 1994",
    ] {
        refused(date::read(text.as_bytes(), OLD_RESULTS_YEAR), 3, 0);
    }
    refused(date::read(b"Mon, 06 Nov 1994 08:49:37 GMT", OLD_RESULTS_YEAR), 4, 0);
    refused(date::read(b"Monday, 06-Nov-94 08:49:37 GMT", OLD_RESULTS_YEAR), 4, 0);
    refused(date::read(b"Mon Nov  6 08:49:37 1994", OLD_RESULTS_YEAR), 4, 0);
}

#[test]
fn malformed_dates() {
    for (text, place) in [
        ("Sun, 6 Nov", 6),
        ("Sun, 06 Nov 1994 08:49:37 gmt", 26),
        ("sun, 06 Nov 1994 08:49:37 GMT", 0),
        ("Sun, 06 Nov 1994 08:49:37 GMT ", 29),
        ("Sun, 06 Nov 1994 08:49:37 GM", 28),
        ("Sun, 06-Nov-94 08:49:37 GMT", 7),
        ("Sunday, 06 Nov 1994 08:49:37 GMT", 10),
        ("Sunday 06", 6),
        ("Sund,", 4),
        ("Sun  Nov", 4),
        ("Sun Nov 6 08:49:37 1994", 9),
        ("Sun Nov   6", 9),
        ("Sun Ju", 6),
        ("Sun Jux", 6),
        ("Sun Nov  6 08:49:37 94", 22),
        ("Th", 2),
        ("Tx", 1),
    ] {
        refused(date::read(text.as_bytes(), OLD_RESULTS_YEAR), 1, place);
    }
}

#[test]
fn date_writer() {
    assert_eq!(date::write(784_111_777, LENGTH), Ok(b"Sun, 06 Nov 1994 08:49:37 GMT".to_vec()));
    assert_eq!(date::write(-1, LENGTH), Ok(b"Wed, 31 Dec 1969 23:59:59 GMT".to_vec()));
    assert_eq!(date::write(EARLIEST, LENGTH), Ok(b"Sat, 01 Jan 1583 00:00:00 GMT".to_vec()));
    assert_eq!(date::write(LATEST, LENGTH), Ok(b"Fri, 31 Dec 9999 23:59:59 GMT".to_vec()));
    refused(date::write(EARLIEST - 1, EMPTY_OUTPUT), 9, 0);
    refused(date::write(LATEST + 1, AMPLE), 9, 0);
    refused(date::write(i64::MIN, AMPLE), 9, 0);
    refused(date::write(0, LENGTH - 1), 8, 0);
}

/// As many seconds as were sent.
fn seconds(value: u32) -> Result<Seconds, Refusal> {
    Ok(Seconds { value, capped: false })
}

/// More seconds than the limit.
const CAPPED: Result<Seconds, Refusal> = Ok(Seconds { value: 2_147_483_648, capped: true });

#[test]
fn delta_seconds() {
    assert_eq!(delta::read(b"0"), seconds(0));
    assert_eq!(delta::read(b"00003600"), seconds(3600));
    assert_eq!(delta::read(b"999999999"), seconds(999_999_999));
    assert_eq!(delta::read(b"2147483646"), seconds(2_147_483_646));
    assert_eq!(delta::read(b"2147483647"), seconds(2_147_483_647));
    assert_eq!(delta::read(b"0002147483647"), seconds(2_147_483_647));
    for (text, place) in
        [("", 0), ("x", 0), ("-1", 0), ("+1", 0), (" 1", 0), ("1 ", 1), ("12x", 2), ("1,2", 1)]
    {
        refused(delta::read(text.as_bytes()), 1, place);
    }
}

#[test]
fn capped_delta_seconds() {
    for text in [
        "2147483648",
        "2147483649",
        "2147483650",
        "0002147483648",
        "3000000000",
        "9999999999",
        "10000000000",
        "21474836470",
        // 2^n - 1, 2^n and 2^n + 5 for n of 32, 64 and 128.
        "4294967295",
        "4294967296",
        "4294967301",
        "18446744073709551615",
        "18446744073709551616",
        "18446744073709551621",
        "340282366920938463463374607431768211455",
        "340282366920938463463374607431768211456",
        "340282366920938463463374607431768211461",
    ] {
        assert_eq!(delta::read(text.as_bytes()), CAPPED, "{text}");
        refused(delta::read(format!("{text}x").as_bytes()), 1, text.len());
    }
    refused(delta::read(b"2147483648x"), 1, 10);
    refused(delta::read(b"99999999999x"), 1, 11);
    refused(delta::read(b"99999999999x9"), 1, 11);
}

#[test]
fn delta_seconds_of_many_digits() {
    let digits = |filler: u8, count: usize, tail: &str| [vec![filler; count], tail.into()].concat();
    let read = |filler, count, tail| delta::read(&digits(filler, count, tail));
    let before = HEADER_LIMIT - "2147483647".len();
    assert_eq!(read(b'9', 1_000, ""), CAPPED);
    assert_eq!(read(b'9', HEADER_LIMIT, ""), CAPPED);
    assert_eq!(read(b'0', HEADER_LIMIT, ""), seconds(0));
    assert_eq!(read(b'0', HEADER_LIMIT - 1, "7"), seconds(7));
    assert_eq!(read(b'0', before, "2147483647"), seconds(2_147_483_647));
    assert_eq!(read(b'0', before, "2147483648"), CAPPED);
    assert_eq!(read(b'0', before - 1, "10000000000"), CAPPED);
    refused(read(b'9', HEADER_LIMIT - 1, "x"), 1, HEADER_LIMIT - 1);
    for filler in [b'0', b'9', b'x'] {
        refused(read(filler, HEADER_LIMIT + 1, ""), 13, HEADER_LIMIT);
        refused(read(filler, HEADER_LIMIT, "x"), 13, HEADER_LIMIT);
    }
}

#[test]
fn qvalues() {
    for (text, thousandths) in [
        ("0", 0),
        ("0.", 0),
        ("0.5", 500),
        ("0.05", 50),
        ("0.123", 123),
        ("0.000", 0),
        ("1", 1000),
        ("1.", 1000),
        ("1.000", 1000),
    ] {
        assert_eq!(qvalue::read(text.as_bytes()), Ok(thousandths));
    }
    for (text, place) in
        [("1.001", 4), ("0.1234", 5), ("1.0000", 5), (".5", 0), ("2", 0), ("00", 1), ("0.5 ", 3)]
    {
        refused(qvalue::read(text.as_bytes()), 1, place);
    }
}

#[test]
fn qvalue_writer() {
    for (thousandths, text) in
        [(500, "0.5"), (0, "0"), (1000, "1"), (50, "0.05"), (5, "0.005"), (120, "0.12"), (999, "0.999")]
    {
        assert_eq!(qvalue::write(thousandths, text.len()), Ok(text.as_bytes().to_vec()));
        refused(qvalue::write(thousandths, text.len() - 1), 8, 0);
        assert_eq!(qvalue::read(text.as_bytes()), Ok(thousandths));
    }
    refused(qvalue::write(1001, EMPTY_OUTPUT), 9, 0);
}

#[test]
fn language_tags() {
    for (text, parts, first) in [
        ("en", 1, 2),
        ("en-US", 2, 2),
        ("en-cockney", 2, 2),
        ("i-cherokee", 2, 1),
        ("x-pig-latin", 3, 1),
        ("abcdefgh", 1, 8),
    ] {
        assert_eq!(language::read(text.as_bytes()), Ok(language::LanguageTag { parts, first }));
    }
    for (text, place) in [
        ("en-", 3),
        ("abcdefghi", 8),
        ("-en", 0),
        ("en--us", 3),
        ("en-abcdefghi", 11),
        ("en_US", 2),
        ("e1", 1),
    ] {
        refused(language::read(text.as_bytes()), 1, place);
    }
    assert_eq!(language::equal(b"en-US", b"EN-us"), Ok(true));
    assert_eq!(language::equal(b"en-US", b"en"), Ok(false));
    assert_eq!(language::equal(b"en", b"en-"), Err(which(Which::Second, 1, 3)));
    assert_eq!(language::equal(b"1", b"-"), Err(which(Which::First, 1, 0)));
}

#[test]
fn entity_tags() {
    let tag = |weak, start, length| Ok(etag::EntityTag { weak, opaque: Span { start, length } });
    assert_eq!(etag::read(b"\"xyzzy\""), tag(false, 1, 5));
    assert_eq!(etag::read(b"W/\"xyzzy\""), tag(true, 3, 5));
    assert_eq!(etag::read(b"w/\"\""), tag(true, 3, 0));
    assert_eq!(etag::read(b"\"a\\\"b\""), tag(false, 1, 4));
    assert_eq!(etag::read(b"\"\t\xff\\\t\""), tag(false, 1, 4));
    for (input, place) in [
        (&b"W/"[..], 2),
        (b"W", 1),
        (b"\"\\\x80", 2),
        (b"\"\\\"", 3),
        (b"\"a\"\"", 3),
        (b"\"\x7f\"", 1),
        (b"\"a\r\n\"", 2),
        (b"xyzzy", 0),
        (b"W \"a\"", 1),
    ] {
        refused(etag::read(input), 1, place);
    }
}

#[test]
fn entity_tag_matches() {
    assert_eq!(etag::strong_match(b"\"a\"", b"\"a\""), Ok(true));
    assert_eq!(etag::strong_match(b"\"a\"", b"\"A\""), Ok(false));
    assert_eq!(etag::strong_match(b"W/\"a\"", b"\"a\""), Ok(false));
    assert_eq!(etag::strong_match(b"\"a\"", b"W/\"a\""), Ok(false));
    assert_eq!(etag::strong_match(b"W/\"a\"", b"W/\"a\""), Ok(false));
    assert_eq!(etag::weak_match(b"W/\"a\"", b"\"a\""), Ok(true));
    assert_eq!(etag::weak_match(b"w/\"a\"", b"W/\"a\""), Ok(true));
    assert_eq!(etag::weak_match(b"\"\\a\"", b"\"a\""), Ok(false));
    assert_eq!(etag::weak_match(b"\"a\"", b"\"b"), Err(which(Which::Second, 1, 2)));
}

fn span(start: usize, length: usize) -> Span {
    Span { start, length }
}

#[test]
fn media_types() {
    let read = media::read(b"text/html \t; charset=\"utf\\-8\" ;q=1").expect("a media type");
    assert_eq!((read.main, read.subtype), (span(0, 4), span(5, 4)));
    let [charset, q] = read.parameters[..] else { panic!("two parameters") };
    assert_eq!((charset.attribute, charset.value, charset.quoted), (span(13, 7), span(22, 6), true));
    assert_eq!((q.attribute, q.value, q.quoted), (span(31, 1), span(33, 1), false));
    for (text, place) in [
        ("text/html ", 10),
        ("text /html", 4),
        ("text/ html", 5),
        ("text/html;charset =x", 17),
        ("text/html;charset= x", 18),
        ("a/b;x=\"", 7),
        ("a/b;", 4),
        ("a/b; ", 5),
        ("a/b;;x=1", 4),
        ("a/b;x=", 6),
        ("a/b;x", 5),
        ("a/b;x=1;", 8),
        ("a/b;x=1 y", 8),
        ("a/b;x=\"1\"y", 9),
        ("text", 4),
        ("text/", 5),
        ("/html", 0),
        ("*/*,", 3),
    ] {
        refused(media::read(text.as_bytes()), 1, place);
    }
}

fn with_parameters(media_type: &str, count: usize) -> String {
    (0..count).fold(media_type.to_string(), |text, index| format!("{text};p{index}=v"))
}

#[test]
fn media_type_limits() {
    refused(media::read(b"a/b;x=1;X=2"), 11, 9);
    refused(media::read(b"a/b;x=1;X="), 11, 9);
    refused(media::read(b"a/b;x=1;X"), 1, 9);
    refused(media::read(b"a/b;x=1;X ="), 1, 9);
    refused(media::read(b"a/b;x=1;xy=2;x=\x00"), 11, 14);
    let sixteen = with_parameters("a/b", PARAMETER_LIMIT);
    assert_eq!(media::read(sixteen.as_bytes()).map(|read| read.parameters.len()), Ok(PARAMETER_LIMIT));
    for tail in ["p0=v", "q=v", "q", "q=\x01"] {
        refused(media::read(format!("{sixteen}; {tail}").as_bytes()), 10, sixteen.len() + 2);
    }
    refused(media::read(format!("{sixteen}; ").as_bytes()), 1, sixteen.len() + 2);
    refused(media::read(format!("{sixteen};=").as_bytes()), 1, sixteen.len() + 1);
}

#[test]
fn media_type_equality() {
    let equal = |one: &str, other: &str| media::equal(one.as_bytes(), other.as_bytes());
    assert_eq!(equal("text/html;charset=\"utf-8\"", "TEXT/HTML ; Charset=UTF-8"), Ok(true));
    assert_eq!(equal("a/b;x=\"\\1\"", "a/b;x=1"), Ok(true));
    assert_eq!(equal("a/b;x=1;y=2", "a/b;Y=2;X=1"), Ok(true));
    assert_eq!(equal("a/b;x=1", "a/b;x=1;y=2"), Ok(false));
    assert_eq!(equal("a/b;x=a", "a/b;x=A"), Ok(false));
    assert_eq!(equal("a/b", "a/c"), Ok(false));
    assert_eq!(equal("a/b", "c/b"), Ok(false));
    assert_eq!(equal("a/b;x=1;x=2", "a"), Err(which(Which::First, 11, 9)));
    assert_eq!(equal("a/b", "a"), Err(which(Which::Second, 1, 1)));
}

type CharsetAnswer = Result<Charset, Refusal>;

const NONE_STATED: CharsetAnswer = Ok(Charset::Absent);
const ASSUMED: CharsetAnswer = Ok(Charset::TextDefault);

/// What `effective_charset` answers, then what the call does that assumes ISO-8859-1.
fn charsets(text: &str, plain: CharsetAnswer, assuming: CharsetAnswer) {
    assert_eq!(media::effective_charset(text.as_bytes()), plain, "{text}");
    assert_eq!(media::charset_assuming_iso_8859_1(text.as_bytes()), assuming, "{text}");
}

/// The answer of both calls.
fn one_charset(text: &str, answer: CharsetAnswer) {
    charsets(text, answer, answer);
}

/// The type in any letter case; an attribute that is only like `charset`, or a value, does not state one.
#[test]
fn text_without_a_charset() {
    for text in [
        "text/html",
        "TEXT/plain",
        "tExT/x",
        "text/charset",
        "text/html;q=1",
        "text/html;charsets=utf-8",
        "text/html;charset-=utf-8",
        "text/html;charse=utf-8",
        "text/html;xcharset=utf-8",
        "text/html;x-charset=utf-8",
        "text/html;harset=utf-8",
        "text/html;a=charset",
        "text/html;a=charset;b=utf-8",
        "text/html;a=\"charset\"",
        "text/html;a=\";charset=utf-8\"",
    ] {
        charsets(text, NONE_STATED, ASSUMED);
    }
}

#[test]
fn other_types_without_a_charset() {
    for text in [
        "application/json",
        "image/gif;a=b",
        "image/gif;charsets=utf-8",
        "image/gif;a=charset",
        "texts/plain",
        "text-/plain",
        "tex/plain",
        "ext/plain",
        "x-text/plain",
        "xtext/plain",
        "image/text",
        "image/gif;text=text",
        "*/*",
    ] {
        one_charset(text, NONE_STATED);
    }
}

#[test]
fn stated_charsets() {
    let given = |start, length, quoted| Ok(Charset::Given { value: span(start, length), quoted });
    one_charset("TEXT/plain;charset=utf-8", given(19, 5, false));
    one_charset("text/html;charset=\"\"", given(19, 0, true));
    one_charset("text/plain;a=b;charset=\"\"", given(24, 0, true));
    one_charset("text/html;CHARSET=iso-8859-1;q=1", given(18, 10, false));
    one_charset("text/html \t; charset=\"utf\\-8\" ;q=1", given(22, 6, true));
    one_charset("text/html;xcharset=a;charset=b", given(29, 1, false));
    one_charset("text/html;charsets=a;charset=b", given(29, 1, false));
    one_charset("text/html;charset=charset", given(18, 7, false));
    one_charset("image/gif;CharSet=x", given(18, 1, false));
    one_charset("texts/html;charset=x", given(19, 1, false));
    let last = with_parameters("text/html", PARAMETER_LIMIT - 1) + ";charset=utf-8";
    one_charset(&last, given(98, 5, false));
}

/// The names by both calls, in the order of `charsets`.
fn charset_names(text: &str, plain: Option<&str>, assuming: Option<&str>) {
    let input = text.as_bytes();
    let check = |answer: CharsetAnswer, name: Option<&str>| {
        let named = answer.map(|charset| charset.name(input));
        assert_eq!(named, Ok(name.map(str::as_bytes)), "{text}");
    };
    check(media::effective_charset(input), plain);
    check(media::charset_assuming_iso_8859_1(input), assuming);
}

#[test]
fn names_of_charsets_not_stated() {
    for text in ["text/html", "TEXT/plain;q=1", "text/html;charsets=utf-8", "text/html;a=\"charset\""] {
        charset_names(text, None, Some("ISO-8859-1"));
    }
    for text in ["application/json", "image/gif;a=b", "texts/plain", "image/text"] {
        charset_names(text, None, None);
    }
}

/// Letter case and pairs as sent.
#[test]
fn names_of_stated_charsets() {
    for (text, name) in [
        ("TEXT/plain;charset=utf-8", "utf-8"),
        ("text/html;charset=\"utf-8\"", "utf-8"),
        ("text/html;charset=\"utf\\-8\"", "utf\\-8"),
        ("text/html;charset=\"\"", ""),
        ("text/html;charset=\"\\\"\"", "\\\""),
        ("text/html;charset=\" é\t\"", " é\t"),
        ("text/html;CHARSET=iso-8859-1;q=1", "iso-8859-1"),
        ("text/html;a=b;charset=\"UTF-8\" ; c=d", "UTF-8"),
        ("text/html;charset=charset", "charset"),
        ("image/gif;CharSet=x", "x"),
    ] {
        charset_names(text, Some(name), Some(name));
    }
}

#[test]
fn refused_charsets() {
    let one_refusal = |text: &str, number, place| one_charset(text, Err(Refusal { number, place }));
    for (text, place) in [
        ("", 0),
        ("text", 4),
        ("text/", 5),
        ("text /html", 4),
        ("text/html;", 10),
        ("text/html;charset", 17),
        ("text/html;charset=", 18),
        ("text/html;charset =x", 17),
        ("text/html;charset=\"x", 20),
        ("text/html;charset=utf-8 ", 24),
        ("text/html;charset=utf 8", 22),
        ("image/gif;charset=x,", 19),
    ] {
        one_refusal(text, 1, place);
    }
    one_refusal("text/html;charset=a;Charset=b", 11, 27);
    one_refusal("text/html;charset=a;CHARSET=a", 11, 27);
    one_refusal("image/gif;charset=a;a=b;charset=", 11, 31);
    one_refusal("text/html;a=b;A=c;charset=d", 11, 15);
    for tail in ["q=1", "charset=utf-8", "charset"] {
        one_refusal(&format!("{};{tail}", with_parameters("text/html", PARAMETER_LIMIT)), 10, 96);
    }
    let long = |count, tail| format!("text/{}{tail}", "h".repeat(count));
    charsets(&long(8_187, ""), NONE_STATED, ASSUMED);
    one_refusal(&long(8_188, ""), 13, 8_192);
    one_refusal(&long(8_192, ";charset=x"), 13, 8_192);
    one_refusal(&"t".repeat(8_193), 13, 8_192);
}

#[test]
fn product_values() {
    for (text, products, comments, deepest) in [
        ("CERN-LineMode/2.15 libwww/2.17b3", 2, 0, 0),
        ("Apache/0.8.4", 1, 0, 0),
        ("Mozilla/5.0 (X11; (deep) x) a/b", 2, 1, 2),
        ("((((((((x))))))))", 0, 1, 8),
        ("a(b)c", 2, 1, 1),
        ("()", 0, 1, 1),
        ("()()", 0, 2, 1),
        ("a \t b/c", 2, 0, 0),
        ("(\\() (\\))", 0, 2, 1),
    ] {
        let expected = products::Products { products, comments, deepest };
        assert_eq!(products::read(text.as_bytes()), Ok(expected), "{text}");
    }
    for (text, place) in [
        ("a/", 2),
        ("a//b", 2),
        ("(a", 2),
        ("a)", 1),
        ("a ", 2),
        ("a b\t", 4),
        ("(a) ", 4),
        (" a", 0),
        ("a/b/c", 3),
        ("a / b", 2),
        ("a,b", 1),
        ("(\\", 2),
        ("(a\r", 2),
    ] {
        refused(products::read(text.as_bytes()), 1, place);
    }
}

#[test]
fn comment_levels() {
    refused(products::read(b"(((((((((x)))))))))"), 12, 8);
    refused(products::read(b"((((((((("), 12, 8);
    refused(products::read(b"(((((((("), 1, 8);
    refused(products::read(b"a (()(((((((((\x00"), 12, 12);
    refused(products::read(&[b'('; HEADER_LIMIT]), 12, 8);
    refused(products::read(b"((((((((\x00("), 1, 8);
    assert_eq!(products::read(b"(((((((())))))))(())").map(|read| read.deepest), Ok(8));
}

#[test]
fn urls() {
    let read = url::read(b"HTTP://abc.com:8080/~smith/home.html?a=%7e?").expect("a URL");
    assert_eq!((read.host, read.port), (span(7, 7), 8080));
    assert_eq!((read.path, read.query), (Some(span(19, 17)), Some(span(37, 6))));
    let bare = url::read(b"http://a").expect("a URL");
    assert_eq!((bare.port, bare.path, bare.query), (80, None, None));
    let empty = url::read(b"http://a:/?").expect("a URL");
    assert_eq!((empty.port, empty.path, empty.query), (80, Some(span(9, 1)), Some(span(11, 0))));
    assert_eq!(url::read(b"http://a:065535").map(|read| read.port), Ok(65_535));
    assert_eq!(url::read(b"http://a:0").map(|read| read.port), Ok(0));
    for (text, place) in [
        ("http://a/%4", 11),
        ("http://a/%4g", 11),
        ("http://a/%g4", 10),
        ("http://a?x", 8),
        ("http:///", 7),
        ("http://a/#", 9),
        ("http://a/?#", 10),
        ("http:/a", 6),
        ("https://a", 4),
        ("http://a_b", 8),
        ("http://a:b", 9),
        ("http://a:1?", 10),
        ("http://a/\"", 9),
        ("http://", 7),
    ] {
        refused(url::read(text.as_bytes()), 1, place);
    }
    refused(url::read(b"http://a:65536/"), 2, 13);
    refused(url::read(b"http://a:99999#"), 2, 13);
}

/// No count of digits caps a port: it is 2 at the digit that passes the limit.
#[test]
fn ports_of_many_digits() {
    let read = |text: String| url::read(text.as_bytes()).map(|read| read.port);
    let (zeros, nines) = ("0".repeat(MANY), "9".repeat(MANY));
    assert_eq!(read(format!("http://a:{zeros}65535/")), Ok(65_535));
    refused(read(format!("http://a:{zeros}65536/")), 2, 13 + MANY);
    refused(read(format!("http://a:{nines}")), 2, 13);
    refused(read(format!("http://a:{nines}#")), 2, 13);
    refused(read(format!("http://a:65535{zeros}/")), 2, 14);
    refused(read(format!("http://a:{zeros}65535#")), 1, 14 + MANY);
}

#[test]
fn url_equality() {
    let equal = |one: &str, other: &str| url::equal(one.as_bytes(), other.as_bytes());
    let smith = "http://abc.com:80/~smith/home.html";
    assert_eq!(equal(smith, "http://ABC.com/%7Esmith/home.html"), Ok(true));
    assert_eq!(equal(smith, "http://ABC.com:/%7esmith/home.html"), Ok(true));
    for same in ["http://a/", "http://a:0080/", "HTTP://A:/", "http://a:80"] {
        assert_eq!(equal("http://a", same), Ok(true));
        assert_eq!(equal(same, "http://a"), Ok(true));
    }
    for other in ["http://a/?", "http://a:81/", "http://b/", "http://a//", "http://a/%2F"] {
        assert_eq!(equal("http://a", other), Ok(false));
    }
    assert_eq!(equal("http://a/%2F", "http://a/%2f"), Ok(false));
    assert_eq!(equal("http://a/%41", "http://a/A"), Ok(true));
    assert_eq!(equal("http://a/%41", "http://a/a"), Ok(false));
    assert_eq!(equal("http://a/%2541", "http://a/%41"), Ok(false));
    assert_eq!(equal("http://a/?%61", "http://a/?a"), Ok(true));
    assert_eq!(equal("http://a/%3B", "http://a/;"), Ok(false));
    assert_eq!(equal("http:", "http"), Err(which(Which::First, 1, 5)));
    assert_eq!(equal("http://a", "http://a:65536"), Err(which(Which::Second, 2, 13)));
}

/// A whole body without a trailer.
fn whole(taken: usize, data: &[u8]) -> Decoded {
    with_trailer(taken, 0, data)
}

/// A whole body with this many bytes of trailer.
fn with_trailer(taken: usize, length: usize, data: &[u8]) -> Decoded {
    Decoded::Whole { taken, trailer: Span { start: taken - 2 - length, length }, data: data.to_vec() }
}

fn chunked_refusal(number: u8, place: usize) -> Decoded {
    Decoded::Refused(Refusal { number, place })
}

#[test]
fn chunked_bodies() {
    assert_eq!(decode(b"0\r\n\r\n", 0), whole(5, b""));
    assert_eq!(decode(b"1", 0), chunked_refusal(7, 0));
    assert_eq!(decode(b"", 0), Decoded::More);
    assert_eq!(decode(b"5\r\nhello\r\n0\r\n\r\nmore", 5), whole(15, b"hello"));
    assert_eq!(decode(b"5\r\nhello\r\n0\r\n\r\n", 4), chunked_refusal(7, 0));
    // The end of a body inside chunk data is data.
    assert_eq!(decode(b"5\r\n0\r\n\r\n\r\n0\r\n\r\n", 9), whole(15, b"0\r\n\r\n"));
    assert_eq!(
        decode(b"a;x;y=z;q=\"\\\"\"\r\n0123456789\r\n00;x\r\nA:\r\nB: c\r\n\r\n", 10),
        with_trailer(46, 10, b"0123456789")
    );
    assert_eq!(decode(b"5\r", 5), Decoded::More);
    assert_eq!(decode(b"5\rX", 5), chunked_refusal(1, 2));
    assert_eq!(decode(b"5\n", 5), chunked_refusal(1, 1));
    assert_eq!(decode(b"\r\n", 5), chunked_refusal(1, 0));
    assert_eq!(decode(b"5 \r\n", 5), chunked_refusal(1, 1));
    assert_eq!(decode(b"1\r\nab", 5), chunked_refusal(1, 4));
    assert_eq!(decode(b"1\r\na\r", 5), Decoded::More);
    assert_eq!(decode(b"0\r\nA\r\n", 5), chunked_refusal(1, 4));
    assert_eq!(decode(b"0\r\n A:b", 5), chunked_refusal(1, 3));
    assert_eq!(decode(b"0\r\n\rx", 5), chunked_refusal(1, 4));
    assert_eq!(decode(b"1;a=\"\\\x80\"", 5), chunked_refusal(1, 6));
    assert_eq!(decode(b"1;a;\r\n", 5), chunked_refusal(1, 4));
    assert_eq!(decode(b"3\r\nabc\r\n3", 5), chunked_refusal(7, 8));
    assert_eq!(decode(b"FFFF", 16_384), chunked_refusal(7, 3));
}

#[test]
fn chunk_line_limit() {
    let zeros = |count: usize, tail: &[u8]| [vec![b'0'; count], tail.to_vec()].concat();
    assert_eq!(decode(&zeros(LINE_LIMIT, b"\r\n\r\n"), 0), whole(LINE_LIMIT + 4, b""));
    assert_eq!(decode(&zeros(LINE_LIMIT + 1, b"\r\n\r\n"), 0), chunked_refusal(5, LINE_LIMIT));
    assert_eq!(decode(&zeros(LINE_LIMIT + 1, b""), 0), chunked_refusal(5, LINE_LIMIT));
    assert_eq!(decode(&zeros(LINE_LIMIT, b"\x00"), 0), chunked_refusal(1, LINE_LIMIT));
    // At one byte 5 comes before 7, and 1 before both.
    assert_eq!(decode(&zeros(LINE_LIMIT, b"1"), 0), chunked_refusal(5, LINE_LIMIT));
    assert_eq!(decode(&zeros(LINE_LIMIT - 1, b"1"), 0), chunked_refusal(7, LINE_LIMIT - 1));
    let second = [b"1\r\nx\r\n".to_vec(), zeros(LINE_LIMIT + 1, b"")].concat();
    assert_eq!(decode(&second, 1), chunked_refusal(5, 6 + LINE_LIMIT));
}

#[test]
fn trailer_limit() {
    let trailer = |count: usize| [b"0\r\nA:".to_vec(), vec![b'x'; count - 4], b"\r\n\r\n".to_vec()].concat();
    assert_eq!(decode(&trailer(TRAILER_LIMIT), 0), with_trailer(TRAILER_LIMIT + 5, TRAILER_LIMIT, b""));
    assert_eq!(decode(&trailer(TRAILER_LIMIT + 1), 0), chunked_refusal(6, 3 + TRAILER_LIMIT));
    let cut = &trailer(TRAILER_LIMIT)[..3 + TRAILER_LIMIT];
    assert_eq!(decode(cut, 0), Decoded::More);
    assert_eq!(decode(&[cut, b"A"].concat(), 0), chunked_refusal(6, 3 + TRAILER_LIMIT));
    assert_eq!(decode(&[cut, b"\r"].concat(), 0), Decoded::More);
    assert_eq!(decode(&[cut, b":"].concat(), 0), chunked_refusal(1, 3 + TRAILER_LIMIT));
}

#[test]
fn sizes_that_would_wrap() {
    assert_eq!(decode(b"10000000000000001\r\nx", 5), chunked_refusal(7, 1));
    assert_eq!(decode(b"10000000000000000\r\n\r\n", usize::MAX), chunked_refusal(7, 16));
    assert_eq!(decode(b"FFFFFFFFFFFFFFFF\r\n", usize::MAX), Decoded::More);
    let two = b"1\r\nx\r\nFFFFFFFFFFFFFFFF";
    assert_eq!(decode(two, usize::MAX), chunked_refusal(7, 21));
    let digits = vec![b'F'; 100];
    assert_eq!(decode(&digits, usize::MAX), chunked_refusal(7, 16));
}

#[test]
fn chunked_writer() {
    assert_eq!(encode(b"hello", 2, 25), Ok(b"2\r\nhe\r\n2\r\nll\r\n1\r\no\r\n0\r\n\r\n".to_vec()));
    assert_eq!(encode(b"hello", usize::MAX, 15), Ok(b"5\r\nhello\r\n0\r\n\r\n".to_vec()));
    assert_eq!(encode(b"", 1, 5), Ok(b"0\r\n\r\n".to_vec()));
    assert_eq!(encode(&[b'x'; 30], 26, AMPLE).map(|frame| frame[..4].to_vec()), Ok(b"1A\r\n".to_vec()));
    refused(encode(b"hello", 2, 24), 8, 0);
    refused(encode(b"hello", 0, 0), 9, 0);
    // Refused before a byte of it is read, so the pages are never touched.
    let large = vec![0; BODY_LIMIT + 1];
    refused(encode(&large, 1, 0), 7, 0);
    refused(encode(&large, 0, 0), 9, 0);
}

#[test]
fn bench_program() {
    let input = b"350D0A68656C6C6F0D0A300D0A0D0A\n350D0A\n350D58\n46464646\n3";
    assert_eq!(bench::run(input), "C 15 5\nM\nR 1 2\nR 7 3\nX\n");
    assert_eq!(bench::run(b""), "");
    assert_eq!(bench::run(b"\n"), "M\n");
    assert_eq!(bench::run(b"\n\n3x\n300d0A0d0A\n"), "M\nM\nX\nC 5 0\n");
    assert_eq!(bench::run(b"30\r\n"), "X\n");
    assert_eq!(bench::run(&vec![b'3'; bench::DIGIT_LIMIT]), "R 7 4\n");
    assert_eq!(bench::run(&vec![b'3'; bench::DIGIT_LIMIT + 2]), "X\n");
}
