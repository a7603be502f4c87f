//! The normal form of URLs against the independent implementation and the plain one: the answer, every lent byte and
//! those around; and what it says of equality.

mod common;

use common::{changes, lend, raw, unused, writes, RANDOM};
use independent::generate::{
    any, at_limits, every, long_urls, other_url, readable_url, respelled_url, short, Kind, Rng,
};
use independent::{plain_values, url};
use quizotepec::{url_equal, url_normalize, url_normalized, url_read, Refusal};

/// How much more room than the URL's length is lent; a normal form needs one byte more at most.
const SPARE: usize = 3;
const VALUE_LIMIT: usize = 8_192;
const MARKS: &[u8] = b"-_.!~*'()";

/// All three answer alike in a room.
fn agree_in(input: &[u8], room: usize) {
    let expected = url::normalize(input, room);
    writes(expected.clone(), room, |out| url_normalize(input, out), input);
    let front = expected.clone().unwrap_or_default();
    let plain = lend(room, |out| plain_values::url_normalize(input, out), |_| front);
    assert_eq!(plain, expected.map(|bytes| bytes.len()), "{input:?} in room {room}");
}

fn agree(input: &[u8]) {
    agree_in(input, input.len() + SPARE);
    let expected = url::normalize(input, usize::MAX).map_err(common::refusal);
    let answer = url_normalized(input);
    assert_eq!(answer.as_ref().map(|normal| normal.as_bytes()), expected.as_deref(), "{input:?}");
    let mut out = vec![0; input.len() + SPARE];
    let w = unsafe { raw::qz_url_normalize(input.as_ptr(), input.len(), out.as_mut_ptr(), out.len()) };
    unused(input, w.number, w.place, &[w.length as u64]);
}

fn normal(input: &[u8]) -> Vec<u8> {
    agree(input);
    url_normalized(input).unwrap_or_else(|refusal| panic!("{refusal}: {input:?}")).as_bytes().to_vec()
}

fn gives(url: &str, expected: &str) {
    assert_eq!(String::from_utf8_lossy(&normal(url.as_bytes())), expected, "{url}");
}

#[test]
fn stated_cases() {
    gives("HTTP://ABC.com:/%7Esmith/home.html", "http://abc.com/~smith/home.html");
    gives("http://abc.com:80/~smith/home.html", "http://abc.com/~smith/home.html");
    gives("http://a", "http://a/");
    gives("http://a:0080/?", "http://a/?");
    gives("http://A:08080/%2f%2F%41", "http://a:8080/%2f%2FA");
    gives("http://a/%2541", "http://a/%2541");
    gives("http://a:0", "http://a:0/");
}

/// `%00` to `%FF` with each hex digit in either letter case, in path and query.
#[test]
fn every_escape() {
    for byte in 0..=255_u8 {
        let digits = [format!("{byte:02x}"), format!("{byte:02X}")];
        let [small, large] = &digits;
        let mixed = [format!("{}{}", &small[..1], &large[1..]), format!("{}{}", &large[..1], &small[1..])];
        for escape in digits.iter().chain(&mixed).map(|digits| format!("%{digits}")) {
            let plain = byte.is_ascii_alphanumeric() || MARKS.contains(&byte);
            let left = if plain { char::from(byte).to_string() } else { escape.clone() };
            gives(&format!("http://a/{escape}"), &format!("http://a/{left}"));
            gives(&format!("http://a/?{escape}"), &format!("http://a/?{left}"));
            gives(&format!("http://a/%25{escape}?{escape}%25"), &format!("http://a/%25{left}?{left}%25"));
        }
    }
}

#[test]
fn every_port() {
    for port in 0..=65_535_u32 {
        let left = if port == 80 { String::new() } else { format!(":{port}") };
        gives(&format!("http://a:{port}"), &format!("http://a{left}/"));
        gives(&format!("http://a:000{port}/b?"), &format!("http://a{left}/b?"));
    }
    gives("http://a:/b", "http://a/b");
    gives(&format!("http://a:{}80/b", "0".repeat(8_000)), "http://a/b");
    gives(&format!("http://a:{}/b", "0".repeat(8_000)), "http://a:0/b");
    agree(b"http://a:65536");
}

#[test]
fn every_room() {
    let urls =
        ["http://a", "http://A:08080/%2f%2F%41?%7e", "HTTP://ABC.com:/%7Esmith/home.html", "http://a?x", ""];
    for url in urls {
        (0..=url.len() + SPARE).for_each(|room| agree_in(url.as_bytes(), room));
    }
}

/// Lengths around 8,192, in rooms around the length of the normal form and of the limit.
#[test]
fn long() {
    let mut refused = 0;
    for url in long_urls() {
        agree(&url);
        let length = url_normalized(&url).map_or(VALUE_LIMIT, |normal| normal.as_bytes().len());
        [0, length - 1, length, length + 1, VALUE_LIMIT + 1]
            .into_iter()
            .for_each(|room| agree_in(&url, room));
        let too_long = url_normalized(&url) == Err(Refusal::ValueTooLong { place: VALUE_LIMIT });
        refused += usize::from(too_long && url_read(&url).is_ok());
    }
    // URLs that are read, of 8,192 bytes, without a path and with nothing to drop: of five shapes.
    assert_eq!(refused, 5);
}

#[test]
fn short_strings() {
    short(Kind::Url).iter().flat_map(|family| every(*family)).for_each(|input| agree(&input));
}

#[test]
fn changed_urls() {
    let texts = ["http://a.B:080/~c/%7e?e=%2F?", "HTTP://a:81", "http://a:/%41%zz"];
    texts.iter().flat_map(|text| changes(text)).for_each(|input| agree(&input));
}

#[test]
fn random_strings() {
    let mut rng = Rng::new(61);
    at_limits(Kind::Url).iter().for_each(|input| agree(input));
    for _ in 0..RANDOM {
        let input = any(Kind::Url, &mut rng);
        agree(&input);
        agree_in(&input, rng.below(input.len() + SPARE));
    }
}

/// Two URLs are equal exactly when their normal forms have the same bytes; normalizing twice changes nothing; a normal
/// form is equal to its URL.
#[test]
fn laws() {
    let mut rng = Rng::new(62);
    for _ in 0..RANDOM {
        let one = readable_url(&mut rng);
        let same = respelled_url(&one, &mut rng);
        let other = other_url(&one, &mut rng);
        let form = normal(&one);
        agree_in(&one, rng.below(one.len() + SPARE));
        assert_eq!(normal(&form), form, "{one:?}");
        assert_eq!(normal(&same), form, "{one:?} {same:?}");
        assert_ne!(normal(&other), form, "{one:?} {other:?}");
        for (first, second, equal) in [
            (&one, &one, true),
            (&one, &same, true),
            (&same, &one, true),
            (&one, &other, false),
            (&other, &one, false),
            (&other, &same, false),
            (&form, &one, true),
            (&one, &form, true),
            (&same, &form, true),
            (&form, &other, false),
        ] {
            assert_eq!(url_equal(first, second), Ok(equal), "{first:?} {second:?}");
        }
    }
}
