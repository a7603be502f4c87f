//! Readers of header values against plain ones, each by one value.

use crate::measure::{against, count_for, Ratio, SHORT_ROUNDS};
use independent::etag::EntityTag;
use independent::media::Parameter;
use independent::url::Url;
use independent::{plain_values, Span};
use quizotepec::{etag_read, media_read, url_read, version_read};
use std::hint::black_box;

fn compare<A, B>(value: &[u8], ours: impl Fn(&[u8]) -> A, plain: impl Fn(&[u8]) -> B) -> Ratio {
    against(count_for(value.len()), || ours(black_box(value)), || plain(black_box(value)))
}

fn span(ours: quizotepec::Span) -> Span {
    Span { start: ours.start, length: ours.length }
}

fn parameter(ours: &quizotepec::Parameter) -> Parameter {
    Parameter { attribute: span(ours.attribute), value: span(ours.value), quoted: ours.quoted }
}

fn version(value: &[u8]) -> Ratio {
    let read = version_read(value).expect("a version");
    let plain = plain_values::version(value).expect("a version");
    assert_eq!((read.major, read.minor), (plain.major.into(), plain.minor.into()));
    compare(value, version_read, plain_values::version)
}

fn etag(value: &[u8]) -> Ratio {
    let read = etag_read(value).expect("an entity tag");
    let tag = EntityTag { weak: read.weak, opaque: span(read.opaque) };
    assert_eq!(plain_values::etag(value), Ok(tag));
    compare(value, etag_read, plain_values::etag)
}

pub fn media(value: &[u8]) -> Ratio {
    let read = media_read(value).expect("a media type");
    let plain = plain_values::media(value).expect("a media type");
    assert_eq!((span(read.main), span(read.subtype)), (plain.main, plain.subtype));
    assert!(read.parameters().iter().map(parameter).eq(plain.sent().iter().copied()), "both read the same");
    compare(value, media_read, plain_values::media)
}

fn url(value: &[u8]) -> Ratio {
    let read = url_read(value).expect("a URL");
    let (host, path, query) = (span(read.host), read.path.map(span), read.query.map(span));
    assert_eq!(plain_values::url(value), Ok(Url { host, port: read.port, path, query }));
    compare(value, url_read, plain_values::url)
}

type Compare = fn(&[u8]) -> Ratio;
const VALUES: [(Compare, &str); 5] = [
    (version, "HTTP/1.1"),
    (etag, "\"xyzzy\""),
    (media, "image/gif"),
    (media, "text/html; charset=ISO-8859-4"),
    (url, "http://www.example.com/docs/index.html"),
];

pub fn print() {
    println!("Reading header values: how many times as long ours takes as plain Rust;");
    println!("medians of {SHORT_ROUNDS} short rounds, and quartiles.");
    println!("{:40} {:>5} {:>26}", "value", "bytes", "against plain Rust");
    for (compare, value) in VALUES {
        println!("{value:40} {:5} {:>26}", value.len(), compare(value.as_bytes()).to_string());
    }
}

#[cfg(test)]
mod tests {
    use super::*;

    #[test]
    fn the_url_has_38_bytes() {
        assert_eq!(VALUES[4].1.len(), 38);
    }
}
