//! Readers of header values, and the comparison of media types, against the plain ones that the benchmarks
//! time.

mod common;

use common::{changes, refusal, refused, span};
use independent::generate::{
    any, at_limits, capped_range_sets, counted_range_sets, damaged_range_set, entity_lengths, every,
    long_range_sets, long_urls, pair, range_set, readable_url, short, short_range_sets, Kind, Rng,
};
use independent::media::PARAMETER_LIMIT;
use independent::{media, plain_values, HEADER_LIMIT};
use quizotepec::{
    delta_read, etag_read, media_equal, media_read, ranges_read, url_read, version_read, EntityTag,
    Parameter, Range, Ranges, Refusal, Seconds, Url, Version,
};
use std::fmt::Debug;

const RANDOM: usize = 50_000;
/// How many media types with long names are made.
const LONG: usize = 2_000;
/// Token bytes, of which `^` and `~` differ as a letter's cases do.
const NAME: &[u8] = b"abzABZ019-^~_`|";
const ENTITY_LENGTHS: [u64; 4] = [0, 1, 10_000, u64::MAX];

/// Holds both readers of a kind to one input.
type Agree = fn(&[u8]);
const READ: [(Kind, Agree, &str); 5] = [
    (Kind::Version, version_agrees, "HTTP/012.34"),
    (Kind::Delta, delta_agrees, "2147483647"),
    (Kind::EntityTag, etag_agrees, "W/\"x\\y\""),
    (Kind::MediaType, media_agrees, "a/b; x=1 ;charset=\"\\1\""),
    (Kind::Url, url_agrees, "http://a.b-c:8080/~d/%7e?e=%2F?"),
];

fn alike<T: Debug + PartialEq>(
    input: &[u8],
    answer: Result<T, Refusal>,
    plain: Result<T, independent::Refusal>,
) {
    assert_eq!(answer, plain.map_err(refusal), "{:?}", String::from_utf8_lossy(input));
}

fn version_agrees(input: &[u8]) {
    let plain = plain_values::version(input);
    let version = plain.map(|v| Version { major: v.major.into(), minor: v.minor.into() });
    alike(input, version_read(input), version);
}

fn delta_agrees(input: &[u8]) {
    let plain = plain_values::delta(input).map(|s| Seconds { value: s.value, capped: s.capped });
    alike(input, delta_read(input), plain);
}

fn etag_agrees(input: &[u8]) {
    let plain = plain_values::etag(input).map(|t| EntityTag { weak: t.weak, opaque: span(t.opaque) });
    alike(input, etag_read(input), plain);
}

fn media_agrees(input: &[u8]) {
    let parameter = |p: &media::Parameter| Parameter {
        attribute: span(p.attribute),
        value: span(p.value),
        quoted: p.quoted,
    };
    let plain = plain_values::media(input)
        .map(|m| (span(m.main), span(m.subtype), m.sent().iter().map(parameter).collect()));
    alike(input, media_read(input).map(|m| (m.main, m.subtype, m.parameters().to_vec())), plain);
}

fn media_types_agree(first: &[u8], second: &[u8]) {
    let texts = || [first, second].map(String::from_utf8_lossy);
    let plain = plain_values::media_equal(first, second).map_err(refused);
    assert_eq!(media_equal(first, second), plain, "{:?}", texts());
}

fn url_agrees(input: &[u8]) {
    let plain = plain_values::url(input).map(|u| Url {
        host: span(u.host),
        port: u.port,
        path: u.path.map(span),
        query: u.query.map(span),
    });
    alike(input, url_read(input), plain);
}

fn ranges_agree(input: &[u8], length: u64) {
    let range = |r: &independent::ranges::Range| Range { first: r.first, last: r.last };
    let plain = plain_values::ranges(input, length).map(|t| t.left().iter().map(range).collect());
    let answer = ranges_read(input, length).map(|answer| match answer {
        Ranges::Satisfiable(set) => set.ranges().to_vec(),
        Ranges::Unsatisfiable => Vec::new(),
    });
    alike(input, answer, plain);
}

#[test]
fn random_values_as_plain() {
    let mut rng = Rng::new(81);
    for (kind, agree, _) in READ {
        (0..RANDOM).for_each(|_| agree(&any(kind, &mut rng)));
    }
}

#[test]
fn short_values_as_plain() {
    for (kind, agree, _) in READ {
        short(kind).iter().flat_map(|family| every(*family)).for_each(|input| agree(&input));
    }
}

#[test]
fn values_at_limits_as_plain() {
    for (kind, agree, _) in READ {
        at_limits(kind).iter().for_each(|input| agree(input));
    }
    long_urls().iter().for_each(|input| url_agrees(input));
}

#[test]
fn every_byte_at_every_place_as_plain() {
    for (_, agree, text) in READ {
        changes(text).for_each(|input| agree(&input));
    }
}

#[test]
fn readable_urls_as_plain() {
    let mut rng = Rng::new(82);
    (0..RANDOM).for_each(|_| url_agrees(&readable_url(&mut rng)));
}

#[test]
fn sets_of_ranges_as_plain() {
    let mut rng = Rng::new(83);
    for _ in 0..RANDOM / 10 {
        for length in entity_lengths(&mut rng) {
            ranges_agree(&range_set(length, &mut rng), length);
            ranges_agree(&damaged_range_set(length, &mut rng), length);
        }
    }
    let at_limits = [capped_range_sets(), counted_range_sets(), long_range_sets()].concat();
    for input in at_limits.into_iter().chain(short_range_sets()) {
        ENTITY_LENGTHS.into_iter().for_each(|length| ranges_agree(&input, length));
    }
}

#[test]
fn pairs_of_media_types_as_plain() {
    let mut rng = Rng::new(84);
    for _ in 0..RANDOM {
        let (first, second) = pair(Kind::MediaType, &mut rng);
        media_types_agree(&first, &second);
        media_types_agree(&second, &first);
    }
}

/// Names that share their first bytes, at times one of them twice, and values that are equal or nearly so.
fn long_parameters(rng: &mut Rng) -> Vec<(Vec<u8>, &'static str)> {
    let most = rng.pick(&[4, 40, 480]);
    let shared = rng.string(NAME, 0, most);
    let mut parameters = Vec::new();
    for index in 0..rng.pick(&[1, 2, 8, PARAMETER_LIMIT - 1, PARAMETER_LIMIT, PARAMETER_LIMIT + 1]) {
        let tail = if rng.once_in(100) { rng.below(index + 1) } else { index };
        let name = [&shared, tail.to_string().as_bytes()].concat();
        parameters.push((name, rng.pick(&["v", "\"v\"", "\"\\v\"", "long-value", "\"long-value\""])));
    }
    parameters
}

/// In other letter cases; at times a byte is another one, such as `^` for `~`, which differ as cases do.
fn respelled(name: &[u8], rng: &mut Rng) -> Vec<u8> {
    let flip = |byte: &u8| if byte.is_ascii_alphabetic() && rng.once_in(4) { byte ^ 0x20 } else { *byte };
    let mut name: Vec<u8> = name.iter().map(flip).collect();
    if rng.once_in(200) {
        let place = rng.below(name.len());
        name[place] = if name[place] == b'^' { b'~' } else { rng.pick(NAME) };
    }
    name
}

fn spelled(parameters: &[(Vec<u8>, &str)], rng: &mut Rng) -> Vec<u8> {
    let mut media = b"text/html".to_vec();
    for (name, value) in parameters {
        media.extend([b";", &respelled(name, rng)[..], b"=", value.as_bytes()].concat());
    }
    media
}

/// The same parameters in the same order, in reverse and in others; at times with another value.
#[test]
fn media_types_with_long_names_as_plain() {
    let mut rng = Rng::new(85);
    let mut longest = 0;
    for _ in 0..LONG {
        let mut parameters = long_parameters(&mut rng);
        let first = spelled(&parameters, &mut rng);
        match rng.below(4) {
            0 => {}
            1 => parameters.reverse(),
            2 => parameters.sort_by_key(|_| rng.word()),
            _ => {
                let index = rng.below(parameters.len());
                parameters[index].1 = "other";
            }
        }
        let second = spelled(&parameters, &mut rng);
        [&first, &second].into_iter().for_each(|input| media_agrees(input));
        media_types_agree(&first, &second);
        media_types_agree(&second, &first);
        longest = longest.max(first.len());
    }
    assert!((HEADER_LIMIT - 100..).contains(&longest), "{longest} bytes at most");
}
