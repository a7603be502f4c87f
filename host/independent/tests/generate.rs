//! The generated inputs reach each refusal that documents 01 and 02 give to their kind, and no other; the pairs reach each
//! outcome; the cuttings add up.

use independent::chunked::{decode, Decoded};
use independent::generate::{allowed_name, allowed_names, forbidden_name, forbidden_names};
use independent::generate::{any, at_limits, cuttings, every_cutting, pair, pieces_of, quotas, Kind, Rng};
use independent::generate::{any_body, body, body_with_names};
use independent::generate::{capped_range_sets, content_range, counted_range_sets, damaged_range_set};
use independent::generate::{entity_lengths, long_range_sets, range_set, short_range_sets};
use independent::generate::{present_year, present_years, rfc850_date, two_digit_years};
use independent::grammar::parse;
use independent::ranges::{self, Ranges};
use independent::{date, delta, etag, language, media, url, version, Refused, Which};
use std::cmp::Ordering;
use std::collections::{BTreeSet, HashSet};

const ROUNDS: usize = 20_000;
/// Sets of ranges are longer than other values.
const SET_ROUNDS: usize = 5_000;
const ROOMS: usize = 60;

/// The refusal's number, and 0 where there is none.
fn number(kind: Kind, input: &[u8], room: usize) -> u8 {
    let refusal = match kind {
        Kind::Chunked => match decode(input, room) {
            Decoded::Refused(refusal) => Some(refusal),
            _ => None,
        },
        _ => kind.refusal(input),
    };
    refusal.map_or(0, |refusal| refusal.number)
}

fn reaches(kind: Kind, expected: &[u8]) {
    let mut rng = Rng::new(7);
    let random = (0..ROUNDS).map(|_| any(kind, &mut rng));
    let inputs: Vec<_> = random.chain(at_limits(kind)).collect();
    let numbers: BTreeSet<u8> = inputs.iter().map(|input| number(kind, input, rng.below(ROOMS))).collect();
    assert_eq!(numbers, expected.iter().copied().collect(), "{kind:?}");
}

#[test]
fn header_values() {
    reaches(Kind::Version, &[0, 1, 2, 13]);
    reaches(Kind::Date, &[0, 1, 3, 4, 13]);
    reaches(Kind::Delta, &[0, 1, 13]);
    reaches(Kind::Qvalue, &[0, 1, 13]);
    reaches(Kind::Language, &[0, 1, 13]);
    reaches(Kind::EntityTag, &[0, 1, 13]);
    reaches(Kind::MediaType, &[0, 1, 10, 11, 13]);
    reaches(Kind::Products, &[0, 1, 12, 13]);
    reaches(Kind::Url, &[0, 1, 2, 13]);
}

/// Whether the digits in front are capped, have leading zeros, are a thousand or more, and end the input.
fn shape(input: &[u8]) -> Option<(bool, bool, bool, bool)> {
    let count = input.iter().take_while(|byte| byte.is_ascii_digit()).count();
    let capped = delta::read(&input[..count]).ok()?.capped;
    Some((capped, count > 1 && input[0] == b'0', count >= 1_000, count == input.len()))
}

/// Random seconds and those at the limits both have every shape but one that there is not: a thousand digits
/// without a leading zero, and not capped.
#[test]
fn seconds_on_both_sides_of_their_limit() {
    let mut rng = Rng::new(12);
    let random: Vec<_> = (0..ROUNDS).map(|_| any(Kind::Delta, &mut rng)).collect();
    for inputs in [random, at_limits(Kind::Delta)] {
        let shapes: BTreeSet<_> = inputs.iter().filter_map(|input| shape(input)).collect();
        assert!(!shapes.iter().any(|shape| matches!(shape, (false, false, true, _))));
        assert_eq!(shapes.len(), (1 << 4) - 2, "{shapes:?}");
    }
}

#[test]
fn seconds_of_about_8192_digits() {
    let inputs: HashSet<_> = at_limits(Kind::Delta).into_iter().collect();
    for length in 8_190..=8_194 {
        assert!(inputs.contains(&vec![b'9'; length]));
        for tail in ["", "2147483647", "2147483648", "2147483649"] {
            let zeros = "0".repeat(length - tail.len());
            assert!(inputs.contains(format!("{zeros}{tail}").as_bytes()), "{length}, {tail}");
        }
    }
}

/// The range's own ends, the years beside them, and those that no clock shows; most are in range.
#[test]
fn present_years_on_both_sides() {
    let mut rng = Rng::new(17);
    let random: Vec<_> = (0..ROUNDS).map(|_| present_year(&mut rng)).collect();
    for year in [0, 1631, 1632, 1633, 2018, 2019, 2020, 2026, 9948, 9949, 9950, u32::MAX] {
        assert!(present_years().contains(&year) && random.contains(&year), "{year}");
    }
    let in_range = random.iter().filter(|year| (1632..=9949).contains(*year)).count();
    assert!(in_range > ROUNDS * 3 / 4 && in_range < ROUNDS * 19 / 20, "{in_range}");
    let different: HashSet<_> = random.iter().collect();
    assert!(different.len() > 5_000, "{}", different.len());
}

/// The refusal's number, and 0 where there is none.
fn date_number(input: &[u8], present_year: u32) -> u8 {
    date::read(input, present_year).map_or_else(|refusal| refusal.number, |_| 0)
}

/// Most are read, as years from one end of the window to the other; the rest is 3 or 4.
#[test]
fn dates_in_the_rfc850_form() {
    let mut rng = Rng::new(18);
    for present in [1632, 1850, 2019, 2026, 9949] {
        let inputs: Vec<_> = (0..ROUNDS / 4).map(|_| rfc850_date(present, &mut rng)).collect();
        let whole = |input: &Vec<u8>| parse(date::grammar(), input).end == Some(input.len());
        assert!(inputs.iter().all(|input| input.windows(3).any(|part| part == b"day") && whole(input)));
        let count = |number| inputs.iter().filter(|input| date_number(input, present) == number).count();
        assert!(count(0) > inputs.len() / 2 && count(3) > inputs.len() / 20 && count(4) > inputs.len() / 20);
        assert_eq!(count(0) + count(3) + count(4), inputs.len());
        let years: BTreeSet<_> =
            inputs.iter().filter_map(|input| date::read(input, present).ok()).map(|date| date.year).collect();
        assert!(years.into_iter().map(u32::from).eq(present - 49..=present + 50), "{present}");
    }
}

/// Present years out of range have dates too.
#[test]
fn dates_without_a_window() {
    let mut rng = Rng::new(20);
    for present in [0, 1631, 9950, u32::MAX] {
        let input = rfc850_date(present, &mut rng);
        assert_eq!(parse(date::grammar(), &input).end, Some(input.len()), "{present}");
        assert_eq!(date_number(&input, present), 9, "{present}");
    }
}

/// Day names that are right a century off; and 29 February of `00`, which is 3 where 1900 is chosen and exists in 2000.
#[test]
fn dates_of_the_centuries_beside() {
    let mut rng = Rng::new(19);
    let inputs: Vec<_> = (0..ROUNDS).map(|_| rfc850_date(2019, &mut rng)).collect();
    let other = |present| {
        let wrong_now = |input: &&Vec<u8>| date_number(input, 2019) == 4 && date_number(input, present) == 0;
        inputs.iter().filter(wrong_now).count()
    };
    assert!(other(1919) > ROUNDS / 50 && other(2119) > ROUNDS / 50, "{}, {}", other(1919), other(2119));
    for (present, expected) in [(1850, &[3][..]), (2019, &[0, 3, 4])] {
        let inputs: Vec<_> = (0..ROUNDS).map(|_| rfc850_date(present, &mut rng)).collect();
        let leap_days = inputs.iter().filter(|input| has(&[input.to_vec()], "29-Feb-00"));
        let numbers: BTreeSet<_> = leap_days.map(|input| date_number(input, present)).collect();
        assert_eq!(numbers, expected.iter().copied().collect(), "{present}");
    }
}

/// Under each present year one name fits each of 300 days, and each 29 February that exists. There are 25 of these
/// from 1970 to 2069 and from 1583 to 1682, but 24 from 1801 to 1900 and from 9900 to 9999; the others are 3.
#[test]
fn every_two_digit_year() {
    let inputs = two_digit_years();
    assert_eq!(inputs.len(), 100 * 4 * 7);
    for (present, leap_days) in [(2019, 25), (1850, 24), (1632, 25), (9949, 24)] {
        let count = |number| inputs.iter().filter(|input| date_number(input, present) == number).count();
        assert_eq!((count(0), count(3)), (300 + leap_days, (100 - leap_days) * 7), "{present}");
        assert_eq!(count(4), (300 + leap_days) * 6, "{present}");
    }
}

#[test]
fn chunked_bodies() {
    reaches(Kind::Chunked, &[0, 1, 5, 6, 7, 15]);
}

/// Forbidden names are just the three, `Trailer` in every letter case; allowed ones are none of them.
#[test]
fn names_in_trailers() {
    let forbidden = |name: &[u8]| {
        let lower = name.to_ascii_lowercase();
        [&b"transfer-encoding"[..], b"content-length", b"trailer"].contains(&&lower[..])
    };
    let mut rng = Rng::new(10);
    let names: HashSet<_> = forbidden_names(&mut rng).into_iter().collect();
    assert!(names.iter().all(|name| forbidden(name)));
    let trailer = names.iter().filter(|name| name.len() == 7).count();
    assert_eq!(trailer, 1 << 7);
    assert!(allowed_names().iter().all(|name| !forbidden(name)));
    for _ in 0..ROUNDS {
        assert!(forbidden(&forbidden_name(&mut rng)));
        assert!(!forbidden(&allowed_name(&mut rng)));
    }
    let numbers: BTreeSet<u8> =
        (0..ROUNDS).map(|_| number(Kind::Chunked, &body_with_names(&mut rng), 0)).collect();
    assert_eq!(numbers, BTreeSet::from([0, 15]));
}

/// A body of the one generator is whole in enough room; one of the other may have a forbidden name.
#[test]
fn trailers_of_bodies() {
    let mut rng = Rng::new(11);
    let mut numbers = BTreeSet::new();
    for _ in 0..ROUNDS {
        let (input, length) = body(&mut rng);
        assert_eq!(number(Kind::Chunked, &input, length), 0, "{input:?}");
        let (input, length) = any_body(&mut rng);
        numbers.insert(number(Kind::Chunked, &input, length));
    }
    assert_eq!(numbers, BTreeSet::from([0, 15]));
}

/// The byte 8,192 of a trailer may be a forbidden name's colon; from the byte 8,193 on it is 6.
#[test]
fn names_at_the_trailers_limit() {
    let inputs = at_limits(Kind::Chunked);
    for (byte, expected) in [(8_191, 15), (8_192, 15), (8_193, 6), (8_194, 6), (8_195, 6)] {
        let is_cut_at_colon = |input: &&Vec<u8>| input.len() == 3 + byte && input.ends_with(b"\r\nTrailer:");
        let colons: Vec<_> = inputs.iter().filter(is_cut_at_colon).collect();
        assert!(!colons.is_empty());
        assert!(colons.iter().all(|input| number(Kind::Chunked, input, 0) == expected), "{byte}");
    }
}

fn compare(kind: Kind, (first, second): (Vec<u8>, Vec<u8>)) -> Result<bool, Refused> {
    match kind {
        Kind::Version => version::compare(&first, &second).map(|order| order == Ordering::Equal),
        Kind::Language => language::equal(&first, &second),
        Kind::EntityTag => etag::weak_match(&first, &second),
        Kind::MediaType => media::equal(&first, &second),
        Kind::Url => url::equal(&first, &second),
        _ => unreachable!("values of {kind:?} are not compared"),
    }
}

#[test]
fn pairs() {
    let all = HashSet::from([Ok(true), Ok(false), Err(Which::First), Err(Which::Second)]);
    for kind in [Kind::Version, Kind::Language, Kind::EntityTag, Kind::MediaType, Kind::Url] {
        let mut rng = Rng::new(8);
        let outcome = |_| compare(kind, pair(kind, &mut rng)).map_err(|refused| refused.which);
        assert_eq!((0..ROUNDS).map(outcome).collect::<HashSet<_>>(), all, "{kind:?}");
    }
}

#[test]
fn every_cutting_of_a_short_length() {
    assert_eq!(every_cutting(0).collect::<Vec<_>>(), [vec![]; 1]);
    for length in 1..=10 {
        let cuttings: HashSet<_> = every_cutting(length).collect();
        assert_eq!(cuttings.len(), 1 << (length - 1));
        let adds_up = |cutting: &Vec<usize>| cutting.iter().sum::<usize>() == length && !cutting.contains(&0);
        assert!(cuttings.iter().all(adds_up));
    }
}

#[test]
fn cuttings_of_any_length() {
    let mut rng = Rng::new(9);
    for length in [0, 1, 5, 12, 13, 100, 9_000] {
        let input: Vec<u8> = (0..length).map(|_| rng.byte()).collect();
        let cuttings = cuttings(length, &mut rng);
        for cutting in &cuttings {
            let pieces: Vec<_> = pieces_of(&input, cutting).collect();
            assert_eq!(pieces.concat(), input);
            assert!(pieces.iter().map(|piece| piece.len()).eq(cutting.iter().copied()));
        }
        assert!(cuttings.contains(&vec![1; length]));
        assert!(length == 0 || cuttings.contains(&vec![length]));
        assert!(cuttings.iter().any(|cutting| cutting.contains(&0)));
    }
}

#[test]
fn quotas_on_both_sides() {
    assert_eq!(quotas(0), [1, 2, usize::MAX]);
    assert_eq!(quotas(10), [1, 2, 5, 9, 10, 11, usize::MAX]);
    assert_eq!(quotas(usize::MAX).last(), Some(&usize::MAX));
}

/// What a set of ranges can come to.
#[derive(Clone, Copy, Debug, PartialEq, Eq, PartialOrd, Ord)]
enum Outcome {
    Satisfiable,
    Unsatisfiable,
    /// A last below its first.
    Backward,
    Refused(u8),
}

fn outcome(input: &[u8], entity_length: u64) -> Outcome {
    match ranges::read(input, entity_length) {
        Ok(Ranges::Satisfiable(_)) => Outcome::Satisfiable,
        Ok(Ranges::Unsatisfiable) => Outcome::Unsatisfiable,
        // By the grammar alone it can be completed behind that place.
        Err(refusal) if refusal.number == 1 && refusal.place < parse(ranges::grammar(), input).live => {
            Outcome::Backward
        }
        Err(refusal) => Outcome::Refused(refusal.number),
    }
}

fn outcomes<'a>(inputs: impl IntoIterator<Item = &'a Vec<u8>>, entity_length: u64) -> BTreeSet<Outcome> {
    inputs.into_iter().map(|input| outcome(input, entity_length)).collect()
}

/// Of a well-formed set.
fn element_count(input: &[u8]) -> usize {
    1 + input.iter().filter(|byte| **byte == b',').count()
}

fn has(inputs: &[Vec<u8>], part: &str) -> bool {
    inputs.iter().any(|input| input.windows(part.len()).any(|window| window == part.as_bytes()))
}

#[test]
fn entity_lengths_on_both_sides() {
    let mut rng = Rng::new(13);
    let listed = [0, 1, 2, 10, 10_000, (1 << 63) - 2, (1 << 63) - 1, 1 << 63, u64::MAX];
    let mut random = HashSet::new();
    for _ in 0..100 {
        let lengths = entity_lengths(&mut rng);
        assert!(lengths.starts_with(&listed));
        random.extend(lengths[listed.len()..].iter().map(|length| u64::BITS - length.leading_zeros()));
    }
    // From a few bits to all.
    assert!((1..=64).filter(|bits| random.contains(bits)).count() > 50, "{random:?}");
}

#[test]
fn short_sets_of_ranges() {
    let inputs: HashSet<_> = short_range_sets().collect();
    assert_eq!(inputs.len(), 1 + 8 + 64 + 512 + 4_096 + 32_768);
    let is_short = |input: &Vec<u8>| {
        let rest = input.strip_prefix(b"bytes=").expect("the unit");
        rest.len() <= 5 && rest.iter().all(|byte| b"0159-, x".contains(byte))
    };
    assert!(inputs.iter().all(is_short));
    let expected = [Outcome::Satisfiable, Outcome::Unsatisfiable, Outcome::Backward, Outcome::Refused(1)];
    assert_eq!(outcomes(&inputs, 9), BTreeSet::from(expected));
}

/// They are well-formed, so that only 10 refuses them, and have each property that is asked of them.
#[test]
fn well_formed_sets_of_ranges() {
    let mut rng = Rng::new(14);
    let inputs: Vec<_> = (0..SET_ROUNDS).map(|_| range_set(10_000, &mut rng)).collect();
    let expected = [Outcome::Satisfiable, Outcome::Unsatisfiable, Outcome::Refused(10)];
    assert_eq!(outcomes(&inputs, 10_000), BTreeSet::from(expected));
    for input in &inputs {
        assert_eq!(outcome(input, 10_000) == Outcome::Refused(10), element_count(input) > 16);
    }
    let counts: BTreeSet<_> = inputs.iter().map(|input| element_count(input)).collect();
    assert_eq!(counts, (1..=20).collect());
    let unit = |bytes: &[u8]| inputs.iter().any(|input| input.starts_with(bytes));
    assert!(unit(b"bytes=") && unit(b"BYTES=") && unit(b"bYtEs="));
    for part in [" ,", "\t,", ", ", ",\t", "-,", ",-", "=-", "-0", "=00", "-00", "9999-", "-10000", "-10001"]
    {
        assert!(has(&inputs, part), "{part:?}");
    }
    for number in
        ["9223372036854775807", "9223372036854775808", "18446744073709551615", "18446744073709551616"]
    {
        assert!(has(&inputs, &format!("{number}-")) && has(&inputs, &format!("-{number}")), "{number}");
    }
    let runs = |input: &Vec<u8>| input.split(|byte| !byte.is_ascii_digit()).map(<[u8]>::len).max();
    assert!(inputs.iter().any(|input| runs(input) >= Some(100)));
}

#[test]
fn damaged_sets_of_ranges() {
    let mut rng = Rng::new(15);
    let inputs: Vec<_> = (0..SET_ROUNDS).map(|_| damaged_range_set(10_000, &mut rng)).collect();
    let expected = [
        Outcome::Satisfiable,
        Outcome::Unsatisfiable,
        Outcome::Backward,
        Outcome::Refused(1),
        Outcome::Refused(10),
    ];
    assert_eq!(outcomes(&inputs, 10_000), BTreeSet::from(expected));
    // Some only end too early, and some go on behind the refused byte.
    let malformed = |input: &&Vec<u8>| outcome(input, 10_000) == Outcome::Refused(1);
    let is_early = |input: &Vec<u8>| parse(ranges::grammar(), input).live == input.len();
    let early = inputs.iter().filter(malformed).filter(|input| is_early(input)).count();
    let late = inputs.iter().filter(malformed).filter(|input| !is_early(input)).count();
    assert!(early > SET_ROUNDS / 20 && late > SET_ROUNDS / 20, "{early}, {late}");
}

/// With 16 elements and more, with a last below its first in front of the seventeenth, there, and behind it.
#[test]
fn sets_of_about_sixteen_ranges() {
    let inputs = counted_range_sets();
    let answers = [Outcome::Satisfiable, Outcome::Backward, Outcome::Refused(1), Outcome::Refused(10)];
    assert_eq!(outcomes(&inputs, 10_000), BTreeSet::from(answers));
    let backward = |input: &Vec<u8>| {
        let elements = input[6..].split(|byte| *byte == b',');
        elements.map(|element| element.trim_ascii()).position(|element| element == b"5-3")
    };
    for count in [16, 17, 18] {
        let counted = || inputs.iter().filter(move |input| element_count(input) == count);
        let plain: Vec<_> = counted().filter(|input| backward(input).is_none()).collect();
        let read = if count > 16 { Outcome::Refused(10) } else { Outcome::Satisfiable };
        assert!(outcomes(plain, 10_000).contains(&read));
        for place in 0..count {
            let there: Vec<_> = counted().filter(|input| backward(input) == Some(place)).collect();
            let expected = if place < 16 { Outcome::Backward } else { Outcome::Refused(10) };
            assert_eq!(outcomes(there, 10_000), BTreeSet::from([expected]), "{count}, {place}");
        }
    }
}

#[test]
fn sets_of_about_8192_bytes() {
    let inputs = long_range_sets();
    let of_length = |length| inputs.iter().filter(move |input| input.len() == length);
    let read = [
        Outcome::Satisfiable,
        Outcome::Unsatisfiable,
        Outcome::Backward,
        Outcome::Refused(1),
        Outcome::Refused(10),
    ];
    assert_eq!(outcomes(of_length(8_191), 10_000), BTreeSet::from(read));
    assert_eq!(outcomes(of_length(8_192), 10_000), BTreeSet::from(read));
    assert_eq!(outcomes(of_length(8_193), 10_000), BTreeSet::from([Outcome::Refused(13)]));
    assert_eq!(outcomes(of_length(8_193), 1 << 63), BTreeSet::from([Outcome::Refused(9)]));
}

#[test]
fn sets_of_capped_numbers() {
    let inputs = capped_range_sets();
    let expected = [Outcome::Satisfiable, Outcome::Unsatisfiable, Outcome::Backward];
    for length in [1, 10_000, (1 << 63) - 2, (1 << 63) - 1] {
        assert_eq!(outcomes(&inputs, length), BTreeSet::from(expected), "{length}");
    }
    // First and last are both capped, or one is; of the latter the last alone is not malformed.
    let input = |text: &str| inputs.contains(&text.as_bytes().to_vec());
    assert!(input("bytes=9223372036854775809-009223372036854775808"));
    assert!(input("bytes=9223372036854775808-9223372036854775806"));
    assert!(input("bytes=9223372036854775806-9223372036854775808"));
    assert!(input("bytes=-0018446744073709551616"));
}

/// Arguments that are written, that need more output, and that each bound refuses.
#[test]
fn arguments_of_the_range_writer() {
    let mut rng = Rng::new(16);
    let mut kinds = BTreeSet::new();
    for _ in 0..ROUNDS {
        let (first, last, length, out_len) = content_range(&mut rng);
        let number = ranges::write_content_range(first, last, length, out_len)
            .map_or_else(|refusal| refusal.number, |_| 0);
        kinds.insert((number, first > last, last >= length, length > ranges::NUMBER_LIMIT));
    }
    let numbers: BTreeSet<_> = kinds.iter().map(|kind| kind.0).collect();
    assert_eq!(numbers, BTreeSet::from([0, 8, 9]));
    for bounds in [(true, false, false), (false, true, false), (false, false, true)] {
        assert!(kinds.contains(&(9, bounds.0, bounds.1, bounds.2)), "{bounds:?}");
    }
}
