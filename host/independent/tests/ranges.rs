//! Request (iv) of document 02: sets of byte ranges from both readers, and the value of `Content-Range`.

use independent::generate::{content_range, damaged_range_set, short_range_sets, Rng};
use independent::ranges::{self, write_content_range, Range, Ranges};
use independent::{plain_values, Refusal, HEADER_LIMIT};

const ROUNDS: usize = 20_000;
/// The entity length of the RFC's examples.
const LENGTH: u64 = 10_000;
/// 2^63-1.
const LIMIT: u64 = 9_223_372_036_854_775_807;

/// The answer of both readers: what is left, and nothing where that is unsatisfiable.
fn answer(input: &[u8], entity_length: u64) -> Result<Vec<(u64, u64)>, Refusal> {
    let pairs = |left: &[Range]| left.iter().map(|range| (range.first, range.last)).collect::<Vec<_>>();
    let answer = ranges::read(input, entity_length).map(|ranges| match ranges {
        Ranges::Satisfiable(left) => {
            assert!(!left.is_empty());
            pairs(&left)
        }
        Ranges::Unsatisfiable => Vec::new(),
    });
    let plain = plain_values::ranges(input, entity_length).map(|table| pairs(table.left()));
    assert_eq!(plain, answer, "{:?} of {entity_length}", String::from_utf8_lossy(input));
    answer
}

fn left_of(text: &str, entity_length: u64, expected: &[(u64, u64)]) {
    assert_eq!(answer(text.as_bytes(), entity_length), Ok(expected.to_vec()), "{text:?} of {entity_length}");
}

fn left(text: &str, expected: &[(u64, u64)]) {
    left_of(text, LENGTH, expected);
}

fn refused_of(text: &str, entity_length: u64, number: u8, place: usize) {
    let refusal = Err(Refusal { number, place });
    assert_eq!(answer(text.as_bytes(), entity_length), refusal, "{text:?} of {entity_length}");
}

fn refused(text: &str, number: u8, place: usize) {
    refused_of(text, LENGTH, number, place);
}

fn malformed(text: &str, place: usize) {
    refused(text, 1, place);
}

/// RFC 2616 14.35.1.
#[test]
fn examples_of_the_rfc() {
    left("bytes=0-499", &[(0, 499)]);
    left("bytes=500-999", &[(500, 999)]);
    left("bytes=-500", &[(9_500, 9_999)]);
    left("bytes=9500-", &[(9_500, 9_999)]);
    left("bytes=0-0,-1", &[(0, 0), (9_999, 9_999)]);
    left("bytes=500-600,601-999", &[(500, 600), (601, 999)]);
    left("bytes=500-700,601-999", &[(500, 700), (601, 999)]);
}

#[test]
fn letter_case_and_leading_zeros() {
    left("BYTES=0-", &[(0, 9_999)]);
    left("bYtEs=-1", &[(9_999, 9_999)]);
    left("bytes=0000-00499", &[(0, 499)]);
    left("bytes=-0000000000000000000000000500", &[(9_500, 9_999)]);
    left("bytes=00000000000000000000000009500-", &[(9_500, 9_999)]);
}

/// "blanks may stand only around commas".
#[test]
fn blanks() {
    left("bytes=1-2 , 3-4", &[(1, 2), (3, 4)]);
    left("bytes=1-2\t \t,3-4", &[(1, 2), (3, 4)]);
    left("bytes=1-2, \t 3-4", &[(1, 2), (3, 4)]);
    left("bytes=1- , -2", &[(1, 9_999), (9_998, 9_999)]);
    left("bytes=-1 ,2-\t,\t3-4", &[(9_999, 9_999), (2, 9_999), (3, 4)]);
    malformed("bytes= 1-2", 6);
    malformed("bytes=\t-2", 6);
    malformed("bytes =1-2", 5);
    malformed(" bytes=1-2", 0);
    malformed("bytes=1 -2", 7);
    malformed("bytes=1- 2", 9);
    malformed("bytes=- 2", 7);
    malformed("bytes=1-2 ", 10);
    malformed("bytes=1-2 \t", 11);
    malformed("bytes=1- ", 9);
    malformed("bytes=1-2 3-4", 10);
    malformed("bytes=1-2,3 -4", 11);
    malformed("bytes=1-2,3-4 ", 14);
    malformed("bytes=1-2\r\n ,3-4", 9);
    malformed("bytes=1-2,\u{b}3-4", 10);
}

#[test]
fn resolved() {
    left("bytes=0-9998", &[(0, 9_998)]);
    left("bytes=0-9999", &[(0, 9_999)]);
    left("bytes=0-10000", &[(0, 9_999)]);
    left("bytes=0-10001", &[(0, 9_999)]);
    left("bytes=9999-10000", &[(9_999, 9_999)]);
    left("bytes=9999-", &[(9_999, 9_999)]);
    left("bytes=10000-", &[]);
    left("bytes=10000-10000", &[]);
    left("bytes=20000-", &[]);
    left("bytes=-1", &[(9_999, 9_999)]);
    left("bytes=-9999", &[(1, 9_999)]);
    left("bytes=-10000", &[(0, 9_999)]);
    left("bytes=-10001", &[(0, 9_999)]);
    left("bytes=-0", &[]);
    left("bytes=-000", &[]);
}

/// "The order sent is kept", and nothing is merged.
#[test]
fn order() {
    left("bytes=3-4,1-2", &[(3, 4), (1, 2)]);
    left("bytes=1-2,1-2", &[(1, 2), (1, 2)]);
    left("bytes=-1,0-,5-5,0-9999", &[(9_999, 9_999), (0, 9_999), (5, 5), (0, 9_999)]);
    left("bytes=20000-,1-2,-0,5-,10000-20000", &[(1, 2), (5, 9_999)]);
    left("bytes=-0,10000-", &[]);
}

#[test]
fn short_entities() {
    for text in
        ["bytes=0-", "bytes=0-0", "bytes=-0", "bytes=-1", "bytes=0-499 ,-5", "bytes=-99999999999999999999"]
    {
        left_of(text, 0, &[]);
    }
    left_of("bytes=0-", 1, &[(0, 0)]);
    left_of("bytes=0-0", 1, &[(0, 0)]);
    left_of("bytes=0-1", 1, &[(0, 0)]);
    left_of("bytes=1-", 1, &[]);
    left_of("bytes=-1", 1, &[(0, 0)]);
    left_of("bytes=-2", 1, &[(0, 0)]);
    left_of("bytes=1-,0-0,-1", 2, &[(1, 1), (0, 0), (1, 1)]);
}

#[test]
fn malformed_sets() {
    for (text, place) in [
        ("", 0),
        ("b", 1),
        ("byte", 4),
        ("bytes", 5),
        ("bytes=", 6),
        ("bytez=0-", 4),
        ("bytes:0-", 5),
        ("lines=0-1", 0),
        ("0-1", 0),
        ("bytes=x", 6),
        ("bytes==0-", 6),
        ("bytes=*", 6),
        ("bytes=+1-2", 6),
        ("bytes=1", 7),
        ("bytes=1x", 7),
        ("bytes=12", 8),
        ("bytes=1,2-3", 7),
        ("bytes=-", 7),
        ("bytes=-x", 7),
        ("bytes=-,1-2", 7),
        ("bytes=--1", 7),
        ("bytes=1--2", 8),
        ("bytes=1-+2", 8),
        ("bytes=1-x", 8),
        ("bytes=-5-", 8),
        ("bytes=1-2-3", 9),
        ("bytes=1-2;3-4", 9),
        ("bytes=1-2x", 9),
        ("bytes=1-2/10", 9),
    ] {
        malformed(text, place);
    }
}

/// "an empty element is malformed (house rule)".
#[test]
fn empty_elements() {
    malformed("bytes=,", 6);
    malformed("bytes=,1-2", 6);
    malformed("bytes=1-2,", 10);
    malformed("bytes=1-2, ", 11);
    malformed("bytes=1-2,,3-4", 10);
    malformed("bytes=1-2, ,3-4", 11);
    malformed("bytes=1-2,x", 10);
    malformed("bytes=1-2 ,", 11);
}

/// "A last below its first, once its digits end, is malformed at its last digit, whatever follows."
#[test]
fn last_below_first() {
    for tail in ["", "x", ",", " ", "-", ",,", ",1-2", " ,1-2", " 0", "\t,x", "=", ",9-1"] {
        malformed(&format!("bytes=5-3{tail}"), 8);
    }
    left("bytes=5-30", &[(5, 30)]);
    malformed("bytes=5-30x", 10);
    left("bytes=5-5", &[(5, 5)]);
    left("bytes=5-05", &[(5, 5)]);
    left("bytes=05-5", &[(5, 5)]);
    malformed("bytes=1-0", 8);
    malformed("bytes=10-9", 9);
    malformed("bytes=10-9 , 1-2", 9);
    malformed("bytes=5-0003", 11);
    malformed("bytes=5-00000", 12);
    malformed("bytes=005-4", 10);
    malformed("bytes=20000-19999", 16);
}

#[test]
fn last_below_first_behind_other_elements() {
    malformed("bytes=1-2,5-3", 12);
    malformed("bytes=1-2 , 5-3", 14);
    malformed("bytes=-1,5-3,", 11);
    malformed("bytes=9-,5-3x", 11);
    malformed("bytes=1-2,x,5-3", 10);
    malformed("bytes=1-2 x,5-3", 10);
    malformed("bytes=12,5-3", 8);
    for entity_length in [0, 1, 4, LIMIT] {
        refused_of("bytes=5-3", entity_length, 1, 8);
        refused_of("bytes=1-2,5-3,", entity_length, 1, 12);
    }
}

/// "Numbers above 2^63-1 are capped to it before first and last are compared."
#[test]
fn capped_numbers() {
    left("bytes=99999999999999999999-99999999999999999998", &[]);
    left("bytes=9223372036854775808-9223372036854775807", &[]);
    left("bytes=9223372036854775809-9223372036854775808", &[]);
    left("bytes=18446744073709551616-9223372036854775807", &[]);
    malformed("bytes=9223372036854775807-9223372036854775806", 44);
    malformed("bytes=9223372036854775808-9223372036854775806", 44);
    malformed("bytes=99999999999999999999-5", 27);
    malformed("bytes=18446744073709551616-5", 27);
    malformed("bytes=18446744073709551621-18,", 28);
    left("bytes=0-18446744073709551616", &[(0, 9_999)]);
    left("bytes=5-18446744073709551619", &[(5, 9_999)]);
    left("bytes=-18446744073709551616", &[(0, 9_999)]);
    left("bytes=18446744073709551616-", &[]);
    let (zeros, nines) = ("0".repeat(100), "9".repeat(100));
    left(&format!("bytes={zeros}5-{zeros}6"), &[(5, 6)]);
    left(&format!("bytes=5-{nines}"), &[(5, 9_999)]);
    left(&format!("bytes={nines}9-{nines}"), &[]);
    left(&format!("bytes=-{nines}"), &[(0, 9_999)]);
    malformed(&format!("bytes={nines}-{zeros}7"), 207);
}

#[test]
fn longest_entities() {
    left_of("bytes=9223372036854775805-9223372036854775806", LIMIT, &[(LIMIT - 2, LIMIT - 1)]);
    left_of("bytes=9223372036854775806-", LIMIT, &[(LIMIT - 1, LIMIT - 1)]);
    left_of("bytes=9223372036854775807-", LIMIT, &[]);
    left_of("bytes=9223372036854775808-", LIMIT, &[]);
    left_of("bytes=0-9223372036854775805", LIMIT, &[(0, LIMIT - 2)]);
    left_of("bytes=0-9223372036854775806", LIMIT, &[(0, LIMIT - 1)]);
    left_of("bytes=0-9223372036854775807", LIMIT, &[(0, LIMIT - 1)]);
    left_of("bytes=0-99999999999999999999", LIMIT, &[(0, LIMIT - 1)]);
    left_of("bytes=-1", LIMIT, &[(LIMIT - 1, LIMIT - 1)]);
    left_of("bytes=-9223372036854775806", LIMIT, &[(1, LIMIT - 1)]);
    left_of("bytes=-9223372036854775807", LIMIT, &[(0, LIMIT - 1)]);
    left_of("bytes=-9223372036854775808", LIMIT, &[(0, LIMIT - 1)]);
    left_of("bytes=9223372036854775805-", LIMIT - 1, &[(LIMIT - 2, LIMIT - 2)]);
    left_of("bytes=9223372036854775806-", LIMIT - 1, &[]);
    left_of("bytes=-9223372036854775807", LIMIT - 1, &[(0, LIMIT - 2)]);
}

/// "An entity length above it is refusal 9, first of all."
#[test]
fn entity_length_above_its_limit() {
    let long = "1".repeat(8_193);
    for text in ["", "x", "bytes=0-1", "bytes=5-3", "bytes=-0", &long] {
        for entity_length in [9_223_372_036_854_775_808, 9_223_372_036_854_775_809, u64::MAX] {
            refused_of(text, entity_length, 9, 0);
        }
    }
    refused_of(&long, LIMIT, 13, 8_192);
    refused_of("", LIMIT, 1, 0);
    left_of("bytes=0-1", LIMIT, &[(0, 1)]);
}

/// So many elements `0-`, and the text behind them; element n from 1 begins at 6 + 3(n - 1).
fn elements(count: usize, tail: &str) -> String {
    format!("bytes={}{tail}", vec!["0-"; count].join(","))
}

/// "up to 16 (a seventeenth is refusal 10 at its first byte)".
#[test]
fn sixteen_and_seventeen() {
    left(&elements(16, ""), &[(0, 9_999); 16]);
    left(&elements(15, ",-7"), &[&[(0, 9_999); 15][..], &[(9_993, 9_999)]].concat());
    left(&elements(15, ",3-7"), &[&[(0, 9_999); 15][..], &[(3, 7)]].concat());
    left(&elements(16, "5"), &[&[(0, 9_999); 15][..], &[(0, 5)]].concat());
    for tail in [",0-", ",0-,0-", ",-7", ",-", ",--", ",-x", ",0", ",9x", ",0 ", ",5-3", ",0-,5-3", ",0-,,"] {
        refused(&elements(16, tail), 10, 54);
    }
    refused(&elements(16, " ,0-"), 10, 55);
    refused(&elements(16, ", -1"), 10, 55);
    refused(&elements(16, " , 5-3"), 10, 56);
    refused(&elements(16, "\t\t,  -"), 10, 58);
    refused(&elements(300, "x"), 10, 54);
}

#[test]
fn malformed_behind_sixteen() {
    malformed(&elements(16, ","), 54);
    malformed(&elements(16, ",x"), 54);
    malformed(&elements(16, ",,"), 54);
    malformed(&elements(16, ",,0-"), 54);
    malformed(&elements(16, ", "), 55);
    malformed(&elements(16, ", x"), 55);
    malformed(&elements(16, " "), 54);
    malformed(&elements(16, "x"), 53);
    malformed(&elements(16, "-,0-"), 53);
    malformed(&elements(14, ",x,0-,0-"), 48);
}

/// The lowest place wins: a last below its first before the seventeenth, and that before all behind it.
#[test]
fn last_below_first_and_seventeen() {
    malformed(&elements(15, ",5-3"), 53);
    malformed(&elements(15, ",5-3,"), 53);
    malformed(&elements(15, ",5-3,0-"), 53);
    malformed(&elements(15, ",5-3,-1,5-3"), 53);
    malformed(&elements(15, " , 5-3 , 0-,0-"), 55);
    malformed(&format!("bytes=5-3,{}", &elements(16, "")[6..]), 8);
    malformed(&format!("bytes=5-3,{}", &elements(17, "")[6..]), 8);
    refused(&elements(16, ",5-3"), 10, 54);
    refused(&elements(16, ",0-,5-3"), 10, 54);
}

/// Elements that are left out count.
#[test]
fn empty_ranges_count_as_elements() {
    let empty = |count: usize, tail: &str| format!("bytes={}{tail}", vec!["-0"; count].join(","));
    left(&empty(16, ""), &[]);
    left(&empty(15, ",2-3"), &[(2, 3)]);
    refused(&empty(17, ""), 10, 54);
    refused(&empty(16, ",2-3"), 10, 54);
    refused_of(&elements(17, ""), 0, 10, 54);
}

/// `head`, the filler, `tail`: so many bytes in all.
fn filled(head: &str, filler: &str, tail: &str, length: usize) -> String {
    format!("{head}{}{tail}", filler.repeat(length - head.len() - tail.len()))
}

/// A value of 8,192 bytes has this answer; with one more it is refusal 13.
fn longest(head: &str, filler: &str, tail: &str, expected: Result<&[(u64, u64)], (u8, usize)>) {
    let text = filled(head, filler, tail, 8_192);
    match expected {
        Ok(expected) => left(&text, expected),
        Err((number, place)) => refused(&text, number, place),
    }
    refused(&filled(head, filler, tail, 8_193), 13, 8_192);
}

#[test]
fn longest_values() {
    assert_eq!(HEADER_LIMIT, 8_192);
    longest("bytes=0-", "9", "", Ok(&[(0, 9_999)]));
    longest("bytes=0-", "0", "7", Ok(&[(0, 7)]));
    longest("bytes=", "0", "7-", Ok(&[(7, 9_999)]));
    longest("bytes=", "9", "-", Ok(&[]));
    longest("bytes=-", "0", "7", Ok(&[(9_993, 9_999)]));
    longest("bytes=1-2", " ", ",3-4", Ok(&[(1, 2), (3, 4)]));
    longest("bytes=1-2,", "\t", "3-4", Ok(&[(1, 2), (3, 4)]));
    longest("bytes=5-", "0", "3", Err((1, 8_191)));
    longest("bytes=5-", "0", "3 ", Err((1, 8_190)));
    longest("bytes=", "9", "", Err((1, 8_192)));
    longest("bytes=1-2", " ", "", Err((1, 8_192)));
    longest("bytes=1-2", " ", "3", Err((1, 8_191)));
    // With its comma an element has four bytes, so the seventeenth begins at 6 + 64.
    refused(&format!("bytes={}", "1-2,".repeat(2_047))[..8_192], 10, 70);
}

/// For all 256 bytes, whether a value with the byte between these texts is read.
fn check(head: &str, tail: &str, expected: impl Fn(u8) -> bool) {
    for byte in 0..=255 {
        let input = [head.as_bytes(), &[byte], tail.as_bytes()].concat();
        assert_eq!(answer(&input, LENGTH).is_ok(), expected(byte), "{head:?}, byte {byte}, {tail:?}");
    }
}

#[test]
fn each_byte() {
    for (place, letter) in "bytes".bytes().enumerate() {
        let (head, tail) = (&"bytes=0-"[..place], &"bytes=0-"[place + 1..]);
        check(head, tail, |byte| byte == letter || byte == letter - 32);
    }
    let digit = |byte: u8| (48..=57).contains(&byte);
    let blank = |byte: u8| byte == 32 || byte == 9;
    check("bytes", "0-", |byte| byte == b'=');
    check("bytes=", "-9", digit);
    check("bytes=", "9", |byte| byte == b'-');
    check("bytes=0", "", |byte| byte == b'-');
    check("bytes=0-", "", digit);
    check("bytes=-", "", digit);
    check("bytes=0-1", "", digit);
    check("bytes=0-1", ",2-3", |byte| digit(byte) || blank(byte));
    check("bytes=0-1,", "2-99", |byte| digit(byte) || blank(byte));
    check("bytes=0-1", "2-3", |byte| byte == b',');
    check("bytes=0-1 ", "2-3", |byte| byte == b',');
    check("bytes=0-1 ", ",2-3", blank);
}

/// The bytes of the entity that an element names, each by itself; none if it is malformed.
fn bytes_by_words(element: &str, entity_length: u64) -> Option<Vec<u64>> {
    let (first, last) = element.split_once('-')?;
    if !first.bytes().chain(last.bytes()).all(|byte| byte.is_ascii_digit()) {
        return None;
    }
    let (first, last) = (first.parse::<u64>().ok(), last.parse::<u64>().ok());
    let is_named = |at: &u64| match (first, last) {
        (Some(first), Some(last)) => first <= *at && *at <= last,
        (Some(first), None) => first <= *at,
        (None, suffix) => at + suffix.unwrap_or(0) >= entity_length,
    };
    let is_backward = first.zip(last).is_some_and(|(first, last)| last < first);
    let is_empty = first.or(last).is_none();
    (!is_backward && !is_empty).then(|| (0..entity_length).filter(is_named).collect())
}

/// A short set by the words of the document: elements between commas, which alone have blanks around them.
fn by_words(input: &[u8], entity_length: u64) -> Option<Vec<(u64, u64)>> {
    let text = std::str::from_utf8(input).ok()?.strip_prefix("bytes=")?;
    let commas = text.matches(',').count();
    let mut left = Vec::new();
    for (index, piece) in text.split(',').enumerate() {
        let piece = if index > 0 { piece.trim_start_matches(' ') } else { piece };
        let piece = if index < commas { piece.trim_end_matches(' ') } else { piece };
        let bytes = bytes_by_words(piece, entity_length)?;
        left.extend(bytes.first().copied().zip(bytes.last().copied()));
    }
    Some(left)
}

/// The place of 1 by its words: the longest beginning that some continuation makes well-formed, but the last
/// digit of a last below its first. One of these continuations does if any does.
fn place_by_words(input: &[u8]) -> usize {
    let well_formed =
        |end: usize, more: &str| by_words(&[&input[..end], more.as_bytes()].concat(), 0).is_some();
    let goes_on =
        |end: &usize| ["", "0-", "-", "0", "99999999", ",0-"].iter().any(|more| well_formed(*end, more));
    let place = (0..=input.len()).rev().find(goes_on).expect("all of them begin with the unit");
    // Such a last is whole and yet needs one more digit.
    let element = input[..place].rsplit(|byte| *byte == b',').next().unwrap_or_default();
    let has_last = element.contains(&b'-') && element.last().is_some_and(u8::is_ascii_digit);
    place - usize::from(has_last && !well_formed(place, ""))
}

#[test]
fn short_sets_by_the_words() {
    for input in short_range_sets() {
        for entity_length in [0, 1, 7, 20] {
            let expected = by_words(&input, entity_length)
                .ok_or_else(|| Refusal { number: 1, place: place_by_words(&input) });
            let text = String::from_utf8_lossy(&input);
            assert_eq!(answer(&input, entity_length), expected, "{text} of {entity_length}");
        }
    }
}

/// A refusal depends on nothing behind its place but, for a last below its first, the end of its digits.
#[test]
fn refusals_of_beginnings() {
    let mut rng = Rng::new(5);
    for _ in 0..ROUNDS {
        let input = damaged_range_set(LENGTH, &mut rng);
        let Err(refusal) = answer(&input, LENGTH) else { continue };
        if refusal.place < input.len() {
            let end = input.len() - rng.below(input.len() - refusal.place);
            assert_eq!(answer(&input[..end], LENGTH), Err(refusal), "{:?}", String::from_utf8_lossy(&input));
        }
    }
}

/// Writes into each length of output from none to some above the text's, and looks at every byte of it.
fn written(first: u64, last: u64, length: u64, text: &str) {
    for out_len in 0..text.len() + 3 {
        let answer = write_content_range(first, last, length, out_len);
        if out_len < text.len() {
            assert_eq!(answer, Err(Refusal { number: 8, place: 0 }), "{text} in {out_len}");
        } else {
            assert_eq!(answer, Ok(text.as_bytes().to_vec()), "{text} in {out_len}");
        }
    }
}

/// Refused in each length of output.
fn out_of_range(first: u64, last: u64, length: u64) {
    for out_len in [0, 1, 15, 16, 17, 65, 100] {
        let answer = write_content_range(first, last, length, out_len);
        assert_eq!(answer, Err(Refusal { number: 9, place: 0 }), "{first} {last} {length} in {out_len}");
    }
}

#[test]
fn content_ranges() {
    written(0, 499, 1_234, "bytes 0-499/1234");
    written(500, 999, 1_234, "bytes 500-999/1234");
    written(734, 1_233, 1_234, "bytes 734-1233/1234");
    written(0, 0, 1, "bytes 0-0/1");
    written(9, 10, 11, "bytes 9-10/11");
    written(99, 100, 101, "bytes 99-100/101");
    written(5, 5, 6, "bytes 5-5/6");
    written(0, LIMIT - 1, LIMIT, "bytes 0-9223372036854775806/9223372036854775807");
    let last = "bytes 9223372036854775806-9223372036854775806/9223372036854775807";
    written(LIMIT - 1, LIMIT - 1, LIMIT, last);
    written(1_000_000_000_000_000_000, LIMIT - 2, LIMIT - 1, {
        "bytes 1000000000000000000-9223372036854775805/9223372036854775806"
    });
}

/// "refusal 9 unless first is at most last, last is below the length and the length at most 2^63-1".
#[test]
fn content_ranges_out_of_range() {
    out_of_range(6, 5, 10);
    out_of_range(1, 0, 10);
    out_of_range(5, 10, 10);
    out_of_range(5, 11, 10);
    out_of_range(10, 10, 10);
    out_of_range(0, 0, 0);
    out_of_range(1, 0, 0);
    out_of_range(0, LIMIT, LIMIT);
    out_of_range(LIMIT, LIMIT, LIMIT);
    out_of_range(0, 499, LIMIT + 1);
    out_of_range(0, LIMIT, LIMIT + 1);
    out_of_range(0, 499, u64::MAX);
    out_of_range(0, u64::MAX - 1, u64::MAX);
    out_of_range(u64::MAX, u64::MAX, u64::MAX);
    out_of_range(u64::MAX, 0, 10);
}

/// By the words of the document for each argument.
#[test]
fn random_content_ranges() {
    let mut rng = Rng::new(6);
    for _ in 0..ROUNDS {
        let (first, last, length, out_len) = content_range(&mut rng);
        let answer = write_content_range(first, last, length, out_len);
        let text = format!("bytes {first}-{last}/{length}");
        let expected = match first <= last && last < length && length <= LIMIT {
            false => Err(Refusal { number: 9, place: 0 }),
            true if out_len < text.len() => Err(Refusal { number: 8, place: 0 }),
            true => Ok(text.clone().into_bytes()),
        };
        assert_eq!(answer, expected, "{text} in {out_len}");
    }
}
