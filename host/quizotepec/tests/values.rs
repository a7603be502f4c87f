//! Readers and comparisons of header values against the independent implementation. Dates and byte ranges, which are
//! read with an argument, have tests of their own.

mod common;

use common::{changes, raw, refusal, refused, span, unused, RANDOM};
use independent::generate::{any, at_limits, every, pair, short, valid, Kind, Rng, Short};
use independent::{delta, etag, language, media, products, qvalue, url, version};
use quizotepec::{
    delta_read, etag_read, etag_strong_match, etag_weak_match, language_equal, language_read, media_charset,
    media_charset_assuming_iso_8859_1, media_equal, media_read, products_read, qvalue_read, url_equal,
    url_read, version_compare, version_read, Charset, EntityTag, LanguageTag, Parameter, Products, Refusal,
    Refused, Seconds, Url, Version,
};
use std::fmt::Debug;

/// Holds both readers of a kind to one input.
type Agree = fn(&[u8]);
/// Holds both comparisons of a kind to two inputs.
type AgreeOnPair = fn(&[u8], &[u8]);

/// The kinds that are read.
const READ: [(Kind, Agree); 9] = [
    (Kind::Version, version_agrees),
    (Kind::Delta, delta_agrees),
    (Kind::Qvalue, qvalue_agrees),
    (Kind::Language, language_agrees),
    (Kind::EntityTag, etag_agrees),
    (Kind::MediaType, media_agrees),
    (Kind::MediaType, charsets_agree),
    (Kind::Url, url_agrees),
    (Kind::Products, products_agrees),
];
/// The kinds whose values are compared.
const COMPARED: [(Kind, AgreeOnPair); 5] = [
    (Kind::Version, versions_agree),
    (Kind::Language, languages_agree),
    (Kind::EntityTag, etags_agree),
    (Kind::MediaType, media_types_agree),
    (Kind::Url, urls_agree),
];
/// How many well-formed values are cut at every place.
const CUT: usize = 5_000;
/// About how many short strings of a kind are compared with each other.
const FEW: usize = 800;

/// The answers are the same.
fn alike<T: Debug + PartialEq>(
    input: &[u8],
    answer: Result<T, Refusal>,
    expected: Result<T, independent::Refusal>,
) {
    assert_eq!(answer, expected.map_err(refusal), "{input:?}");
}

fn version_agrees(input: &[u8]) {
    let expected = version::read(input).map(|v| Version { major: v.major.into(), minor: v.minor.into() });
    alike(input, version_read(input), expected);
    // SAFETY: here and below the pointer and the length are those of a slice.
    let v = unsafe { raw::qz_version_read(input.as_ptr(), input.len()) };
    unused(input, v.number, v.place, &[v.major.into(), v.minor.into()]);
}

fn delta_agrees(input: &[u8]) {
    let expected = delta::read(input).map(|s| Seconds { value: s.value, capped: s.capped });
    alike(input, delta_read(input), expected);
    let s = unsafe { raw::qz_delta_read(input.as_ptr(), input.len()) };
    unused(input, s.number, s.place, &[s.value.into(), s.capped.into()]);
}

fn qvalue_agrees(input: &[u8]) {
    alike(input, qvalue_read(input).map(u32::from), qvalue::read(input));
    let q = unsafe { raw::qz_qvalue_read(input.as_ptr(), input.len()) };
    unused(input, q.number, q.place, &[q.value.into()]);
}

fn language_agrees(input: &[u8]) {
    let expected = language::read(input).map(|t| LanguageTag { parts: t.parts, primary: t.first });
    alike(input, language_read(input), expected);
    let t = unsafe { raw::qz_language_read(input.as_ptr(), input.len()) };
    unused(input, t.number, t.place, &[t.parts as u64, t.primary as u64]);
}

fn etag_agrees(input: &[u8]) {
    let tag = |t: etag::EntityTag| EntityTag { weak: t.weak, opaque: span(t.opaque) };
    alike(input, etag_read(input), etag::read(input).map(tag));
    let t = unsafe { raw::qz_etag_read(input.as_ptr(), input.len()) };
    unused(input, t.number, t.place, &[t.weak.into(), t.start as u64, t.length as u64]);
}

const UNUSED: raw::QzParameter =
    raw::QzParameter { start: 0, length: 0, value_start: 0, value_length: 0, quoted: false };
const NO_MEDIA: raw::QzMedia = raw::QzMedia {
    number: 0,
    place: 0,
    type_start: 0,
    type_length: 0,
    subtype_start: 0,
    subtype_length: 0,
    count: 0,
    parameters: [UNUSED; raw::PARAMETERS],
};
const NO_CHARSET: raw::QzCharset =
    raw::QzCharset { number: 0, place: 0, kind: 0, start: 0, length: 0, quoted: false };

/// An answer's number, place and numbers of its own; each field is one of them.
type Fields = (u8, usize, Vec<usize>);

fn of_media(m: raw::QzMedia) -> Fields {
    let raw::QzMedia {
        number,
        place,
        type_start,
        type_length,
        subtype_start,
        subtype_length,
        count,
        parameters,
    } = m;
    let entry = |p: raw::QzParameter| {
        let raw::QzParameter { start, length, value_start, value_length, quoted } = p;
        [start, length, value_start, value_length, quoted.into()]
    };
    let fields = [type_start, type_length, subtype_start, subtype_length, count];
    (number, place, fields.into_iter().chain(parameters.into_iter().flat_map(entry)).collect())
}

fn of_charset(c: raw::QzCharset) -> Fields {
    let raw::QzCharset { number, place, kind, start, length, quoted } = c;
    (number, place, vec![kind.into(), start, length, quoted.into()])
}

/// Every field of the answer, with all entries of its table.
fn media_fields(read: &Result<media::MediaType, independent::Refusal>) -> raw::QzMedia {
    let mut fields = NO_MEDIA;
    match read {
        Err(refusal) => (fields.number, fields.place) = (refusal.number, refusal.place),
        Ok(media) => {
            (fields.type_start, fields.type_length) = (media.main.start, media.main.length);
            (fields.subtype_start, fields.subtype_length) = (media.subtype.start, media.subtype.length);
            fields.count = media.parameters.len();
            for (entry, sent) in fields.parameters.iter_mut().zip(&media.parameters) {
                (entry.start, entry.length) = (sent.attribute.start, sent.attribute.length);
                (entry.value_start, entry.value_length) = (sent.value.start, sent.value.length);
                entry.quoted = sent.quoted;
            }
        }
    }
    fields
}

fn media_agrees(input: &[u8]) {
    let expected = media::read(input);
    let fields = unsafe { raw::qz_media_read(input.as_ptr(), input.len()) };
    assert_eq!(of_media(fields), of_media(media_fields(&expected)), "{input:?}");
    let parameter = |p: &media::Parameter| Parameter {
        attribute: span(p.attribute),
        value: span(p.value),
        quoted: p.quoted,
    };
    let parts = |m: media::MediaType| {
        (span(m.main), span(m.subtype), m.parameters.iter().map(parameter).collect::<Vec<_>>())
    };
    let answer = media_read(input).map(|m| (m.main, m.subtype, m.parameters().to_vec()));
    alike(input, answer, expected.map(parts));
}

/// Every field of the answer.
fn charset_fields(read: Result<media::Charset, independent::Refusal>) -> raw::QzCharset {
    match read {
        Err(refusal) => raw::QzCharset { number: refusal.number, place: refusal.place, ..NO_CHARSET },
        Ok(media::Charset::Given { value, quoted }) => {
            raw::QzCharset { kind: 1, start: value.start, length: value.length, quoted, ..NO_CHARSET }
        }
        Ok(media::Charset::TextDefault) => raw::QzCharset { kind: 2, ..NO_CHARSET },
        Ok(media::Charset::Absent) => NO_CHARSET,
    }
}

fn charset(c: media::Charset) -> Charset {
    match c {
        media::Charset::Given { value, quoted } => Charset::Stated { value: span(value), quoted },
        media::Charset::TextDefault => Charset::Latin1,
        media::Charset::Absent => Charset::NotStated,
    }
}

/// The answer of one call: its fields, its name in bytes, and all else.
fn charset_agrees(
    input: &[u8],
    fields: raw::QzCharset,
    answer: Result<Charset, Refusal>,
    expected: Result<media::Charset, independent::Refusal>,
) {
    assert_eq!(of_charset(fields), of_charset(charset_fields(expected)), "{input:?}");
    let name = answer.map(|c| c.name_in(input));
    assert_eq!(name.ok(), expected.ok().map(|c| c.name(input)), "{input:?}");
    alike(input, answer, expected.map(charset));
}

fn charsets_agree(input: &[u8]) {
    let fields = unsafe { raw::qz_media_charset(input.as_ptr(), input.len()) };
    charset_agrees(input, fields, media_charset(input), media::effective_charset(input));
    let fields = unsafe { raw::qz_media_charset_assuming_iso_8859_1(input.as_ptr(), input.len()) };
    let answer = media_charset_assuming_iso_8859_1(input);
    charset_agrees(input, fields, answer, media::charset_assuming_iso_8859_1(input));
}

fn url_agrees(input: &[u8]) {
    let url = |u: url::Url| Url {
        host: span(u.host),
        port: u.port,
        path: u.path.map(span),
        query: u.query.map(span),
    };
    alike(input, url_read(input), url::read(input).map(url));
    let u = unsafe { raw::qz_url_read(input.as_ptr(), input.len()) };
    unused(input, u.number, u.place, &[u.host.start as u64, u.host.length as u64, u.port.into()]);
    for part in [u.path, u.query] {
        unused(input, u.number, u.place, &[part.present.into()]);
        let raw::QzPart { present, start, length } = part;
        assert!(present || (start, length) == (0, 0), "{input:?}: {start} {length}");
    }
}

fn products_agrees(input: &[u8]) {
    let products =
        |p: products::Products| Products { products: p.products, comments: p.comments, deepest: p.deepest };
    alike(input, products_read(input), products::read(input).map(products));
    let p = unsafe { raw::qz_products_read(input.as_ptr(), input.len()) };
    unused(input, p.number, p.place, &[p.products, p.comments, p.deepest].map(|count| count as u64));
}

/// Two inputs that are compared.
struct Pair<'a>(&'a [u8], &'a [u8]);

impl Pair<'_> {
    fn alike<T: Debug + PartialEq>(
        &self,
        answer: Result<T, Refused>,
        expected: Result<T, independent::Refused>,
    ) {
        assert_eq!(answer, expected.map_err(refused), "{:?} {:?}", self.0, self.1);
    }

    /// A field without a meaning is 0, and a refusal says which input it was.
    fn unused(&self, number: u8, place: usize, which: u8, value: u8) {
        let right = match number {
            0 => (place, which) == (0, 0),
            _ => value == 0 && (which == 1 || which == 2),
        };
        assert!(right, "{:?} {:?}: {number} at {place} of {which}, {value}", self.0, self.1);
    }

    fn unused_of(&self, compare: unsafe extern "C" fn(*const u8, usize, *const u8, usize) -> raw::QzSame) {
        // SAFETY: the pointers and the lengths are those of slices.
        let s = unsafe { compare(self.0.as_ptr(), self.0.len(), self.1.as_ptr(), self.1.len()) };
        self.unused(s.number, s.place, s.which, s.same.into());
    }
}

fn versions_agree(first: &[u8], second: &[u8]) {
    let pair = Pair(first, second);
    pair.alike(version_compare(first, second), version::compare(first, second));
    // SAFETY: the pointers and the lengths are those of slices.
    let o = unsafe { raw::qz_version_compare(first.as_ptr(), first.len(), second.as_ptr(), second.len()) };
    pair.unused(o.number, o.place, o.which, o.order);
}

fn languages_agree(first: &[u8], second: &[u8]) {
    let pair = Pair(first, second);
    pair.alike(language_equal(first, second), language::equal(first, second));
    pair.unused_of(raw::qz_language_equal);
}

fn etags_agree(first: &[u8], second: &[u8]) {
    let pair = Pair(first, second);
    pair.alike(etag_strong_match(first, second), etag::strong_match(first, second));
    pair.alike(etag_weak_match(first, second), etag::weak_match(first, second));
    pair.unused_of(raw::qz_etag_strong_match);
    pair.unused_of(raw::qz_etag_weak_match);
}

fn media_types_agree(first: &[u8], second: &[u8]) {
    let pair = Pair(first, second);
    pair.alike(media_equal(first, second), media::equal(first, second));
    pair.unused_of(raw::qz_media_equal);
}

fn urls_agree(first: &[u8], second: &[u8]) {
    let pair = Pair(first, second);
    pair.alike(url_equal(first, second), url::equal(first, second));
    pair.unused_of(raw::qz_url_equal);
}

#[test]
fn short_strings() {
    for (kind, agree) in READ {
        short(kind).iter().flat_map(|family| every(*family)).for_each(|input| agree(&input));
    }
}

#[test]
fn every_byte_at_every_place() {
    let texts = [
        (version_agrees as Agree, "HTTP/12.34"),
        (delta_agrees, "120"),
        (delta_agrees, "2147483647"),
        (qvalue_agrees, "0.25"),
        (language_agrees, "en-cockney"),
        (etag_agrees, "W/\"x\\y\""),
        (media_agrees, "a/b; x=1 ;charset=\"\\1\""),
        (charsets_agree, "a/b; x=1 ;charset=\"\\1\""),
        (charsets_agree, "text/b;x=1"),
        (charsets_agree, "TEXT/b;charset=1"),
        (url_agrees, "http://a.b-c:8080/~d/%7e?e=%2F?"),
        (products_agrees, "a/1 (b (c) \\)) d"),
    ];
    for (agree, text) in texts {
        changes(text).for_each(|input| agree(&input));
    }
}

#[test]
fn limits() {
    for (kind, agree) in READ {
        at_limits(kind).iter().for_each(|input| agree(input));
    }
}

#[test]
fn every_cut() {
    let mut rng = Rng::new(11);
    for (kind, agree) in READ {
        for _ in 0..CUT {
            let input = valid(kind, &mut rng);
            (0..=input.len()).for_each(|end| agree(&input[..end]));
        }
    }
}

fn random(kind: Kind, agree: Agree, seed: u64) {
    let mut rng = Rng::new(seed);
    (0..RANDOM).for_each(|_| agree(&any(kind, &mut rng)));
}

#[test]
fn random_versions() {
    random(Kind::Version, version_agrees, 12);
}

#[test]
fn random_deltas() {
    random(Kind::Delta, delta_agrees, 13);
}

#[test]
fn random_qvalues() {
    random(Kind::Qvalue, qvalue_agrees, 14);
}

#[test]
fn random_languages() {
    random(Kind::Language, language_agrees, 16);
}

#[test]
fn random_entity_tags() {
    random(Kind::EntityTag, etag_agrees, 17);
}

#[test]
fn random_media_types() {
    random(Kind::MediaType, media_agrees, 21);
}

#[test]
fn random_charsets() {
    random(Kind::MediaType, charsets_agree, 22);
}

#[test]
fn random_urls() {
    random(Kind::Url, url_agrees, 19);
}

#[test]
fn random_products() {
    random(Kind::Products, products_agrees, 20);
}

#[test]
fn random_pairs() {
    let mut rng = Rng::new(15);
    for (kind, agree) in COMPARED {
        for _ in 0..RANDOM {
            let (first, second) = pair(kind, &mut rng);
            agree(&first, &second);
        }
    }
}

#[test]
fn pairs_of_short_strings() {
    for (kind, agree) in COMPARED {
        let all: Vec<_> = short(kind).iter().flat_map(|family| every(*family)).collect();
        let few = || all.iter().step_by(all.len() / FEW);
        for first in few() {
            few().step_by(7).for_each(|second| agree(first, second));
        }
    }
}

/// Every two of the media types with at most two parameters of a few names and values.
#[test]
fn pairs_of_media_types() {
    let values = ["1", "\"1\"", "\"\\1\"", "a", "A", "\"\""];
    let named = |name| values.map(|value| format!(";{name}={value}"));
    let one: Vec<_> = ["x", "X", "y", "charset"].into_iter().flat_map(named).collect();
    let two = one.iter().flat_map(|first| one.iter().map(move |second| format!("{first}{second}")));
    let parameters = one.iter().cloned().chain(two).chain([String::new()]);
    let all: Vec<_> = parameters.map(|parameters| format!("a/b{parameters}")).collect();
    for first in &all {
        all.iter().for_each(|second| media_types_agree(first.as_bytes(), second.as_bytes()));
    }
}

/// Every two of the URLs that are a stem and a few bytes: paths with escapes, ports, an absent path, queries.
#[test]
fn pairs_of_short_urls() {
    let families: [Short; 2] = [(b"http://a", b":/?80", 3), (b"http://a/", b"%2416AaFf", 3)];
    let all: Vec<_> = families.into_iter().flat_map(every).collect();
    for first in &all {
        all.iter().for_each(|second| urls_agree(first, second));
    }
}
