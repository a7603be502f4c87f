//! Readers of header values against the independent ones.

use crate::dates::PRESENT_YEAR;
use crate::measure::{timed, times_as_long, Ratio};
use std::hint::black_box;
use std::time::Duration;

const ROUNDS: usize = 21;
/// How often a round reads each sample.
const READINGS: usize = 200;

/// Reads a value and says whether it was accepted.
type Read = fn(&[u8]) -> bool;

struct Kind {
    name: &'static str,
    samples: &'static [&'static [u8]],
    ours: Read,
    theirs: Read,
}

fn our_date(value: &[u8]) -> Result<quizotepec::Date, quizotepec::Refusal> {
    quizotepec::date_read(value, PRESENT_YEAR)
}

fn their_date(value: &[u8]) -> Result<independent::date::Date, independent::Refusal> {
    independent::date::read(value, PRESENT_YEAR)
}

macro_rules! kind {
    ($name:literal, $ours:path, $theirs:path, [$($sample:literal),+ $(,)?]) => {
        Kind {
            name: $name,
            samples: &[$($sample),+],
            ours: |value| black_box($ours(value)).is_ok(),
            theirs: |value| black_box($theirs(value)).is_ok(),
        }
    };
}

/// Most samples are well-formed; the last of each kind is refused at its end.
const KINDS: &[Kind] = &[
    kind!(
        "version",
        quizotepec::version_read,
        independent::version::read,
        [b"HTTP/1.1", b"http/01.0", b"HTTP/12.13", b"HTTP/1."]
    ),
    kind!(
        "language tag",
        quizotepec::language_read,
        independent::language::read,
        [b"en", b"en-US", b"x-pig-latin", b"en-"]
    ),
    kind!(
        "entity tag",
        quizotepec::etag_read,
        independent::etag::read,
        [b"\"xyzzy\"", b"W/\"xyzzy\"", b"\"\"", b"\"xyzzy"]
    ),
    kind!(
        "date",
        our_date,
        their_date,
        [
            b"Sun, 06 Nov 1994 08:49:37 GMT",
            b"Sunday, 06-Nov-94 08:49:37 GMT",
            b"Sun Nov  6 08:49:37 1994",
            b"Sun, 06 Nov 1994 08:49:37 "
        ]
    ),
    kind!(
        "media type",
        quizotepec::media_read,
        independent::media::read,
        [
            b"text/html; charset=ISO-8859-4",
            b"text/html;charset=\"utf-8\" ; q=0.5",
            b"image/gif",
            b"text/html; charset="
        ]
    ),
    kind!(
        "charset",
        quizotepec::media_charset,
        independent::media::effective_charset,
        [b"text/html; charset=ISO-8859-4", b"text/html;q=0.5", b"image/gif", b"text/html; charset="]
    ),
    kind!(
        "charset assumed",
        quizotepec::media_charset_assuming_iso_8859_1,
        independent::media::charset_assuming_iso_8859_1,
        [b"text/html; charset=ISO-8859-4", b"text/html;q=0.5", b"image/gif", b"text/html; charset="]
    ),
    kind!(
        "URL",
        quizotepec::url_read,
        independent::url::read,
        [
            b"http://abc.com:80/~smith/home.html",
            b"http://ABC.com:/%7esmith/home.html",
            b"http://abc.com",
            b"http://abc.com/%7"
        ]
    ),
    kind!(
        "products",
        quizotepec::products_read,
        independent::products::read,
        [b"CERN-LineMode/2.15 libwww/2.17b3", b"Apache/0.8.4 (Unix (BSD))", b"a", b"a (b"]
    ),
];

/// The time of many readings of each sample.
fn round(read: Read, samples: &[&[u8]]) -> Duration {
    let read_all = || samples.iter().filter(|sample| read(black_box(sample))).count();
    timed(|| (0..READINGS).map(|_| read_all()).sum::<usize>()).0
}

/// How many times as many readings per second ours makes.
fn compare(kind: &Kind) -> Ratio {
    for sample in kind.samples {
        assert_eq!((kind.ours)(sample), (kind.theirs)(sample), "{} {sample:?}", kind.name);
    }
    let mut ours = || round(kind.ours, kind.samples);
    let mut theirs = || round(kind.theirs, kind.samples);
    times_as_long(ROUNDS, &mut [&mut theirs, &mut ours])[0]
}

pub fn print() {
    println!("Header values: how many times as many readings per second ours makes as the independent");
    println!("implementation, which is not made for speed; medians of {ROUNDS} rounds, and quartiles.");
    for kind in KINDS {
        println!("{:16} {:>26}", kind.name, compare(kind).to_string());
    }
}
