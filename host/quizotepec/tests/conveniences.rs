//! What the crate adds to the library: versions as text, instants as system times, the bytes of a part and of a range,
//! normal forms of URLs as keys.

mod common;

use common::{at, date_of, lend, refusal, writes, RANDOM};
use independent::date;
use independent::date::{DAY_NAMES, EARLIEST, LATEST, LENGTH};
use independent::generate::{any, instant, numbers, pair, present_year, rfc850_date, Kind, Rng};
use quizotepec::{
    date_read, date_read_at, date_read_now, date_write, date_write_time, etag_read, language_read,
    media_charset, media_read, ranges_read, url_normalized, url_read, version_compare, version_read,
    version_write, Charset, Date, NormalUrl, Range, Ranges, Refusal, Span, Version, FIRST_PRESENT_YEAR,
    LAST_PRESENT_YEAR,
};
use std::borrow::Borrow;
use std::collections::{BTreeSet, HashSet};
use std::ops::RangeInclusive;
use std::time::{Duration, SystemTime, UNIX_EPOCH};

const NANOS: i128 = 1_000_000_000;

#[test]
fn versions_as_text() {
    assert_eq!(Version::HTTP_1_1, Version { major: 1, minor: 1 });
    assert_eq!(Version::HTTP_1_0, Version { major: 1, minor: 0 });
    assert_eq!(
        (Version::HTTP_1_0.to_string(), Version::HTTP_1_1.to_string()),
        ("HTTP/1.0".into(), "HTTP/1.1".into())
    );
    assert_eq!("HTTP/65536.0".parse::<Version>(), Err(at(2, 9)));
    let mut rng = Rng::new(41);
    for _ in 0..RANDOM {
        let (major, minor) = numbers(&mut rng);
        let version = Version { major: major as u32, minor: minor as u32 };
        let mut out = [0; 32];
        if let Ok(length) = version_write(version, &mut out) {
            assert_eq!(version.to_string().as_bytes(), &out[..length]);
            assert_eq!(version.to_string().parse(), Ok(version));
        }
        if let Ok(text) = String::from_utf8(any(Kind::Version, &mut rng)) {
            assert_eq!(text.parse::<Version>(), version_read(text.as_bytes()), "{text}");
        }
    }
}

/// The order of versions that were read is that of the library.
#[test]
fn versions_in_order() {
    let mut rng = Rng::new(42);
    for _ in 0..RANDOM {
        let (first, second) = pair(Kind::Version, &mut rng);
        if let (Ok(one), Ok(other)) = (version_read(&first), version_read(&second)) {
            assert_eq!(version_compare(&first, &second), Ok(one.cmp(&other)), "{one} {other}");
        }
    }
}

/// So many nanoseconds from 1970.
fn time(nanos: i128) -> SystemTime {
    let apart = nanos.unsigned_abs();
    let apart = Duration::new((apart / NANOS as u128) as u64, (apart % NANOS as u128) as u32);
    if nanos < 0 {
        UNIX_EPOCH - apart
    } else {
        UNIX_EPOCH + apart
    }
}

fn time_agrees(nanos: i128, room: usize) {
    let seconds = i64::try_from(nanos.div_euclid(NANOS)).expect("within the range of a system time");
    writes(date::write(seconds, room), room, |out| date_write_time(time(nanos), out), nanos);
}

#[test]
fn times_at_both_ends_and_around_1970() {
    for second in [EARLIEST - 1, EARLIEST, EARLIEST + 1, -1, 0, 1, LATEST, LATEST + 1, LATEST + 2] {
        for nanos in [-1, 0, 1, NANOS / 2, NANOS - 1] {
            (LENGTH - 1..=LENGTH + 1).for_each(|room| time_agrees(i128::from(second) * NANOS + nanos, room));
        }
    }
}

#[test]
fn random_times() {
    let mut rng = Rng::new(43);
    for _ in 0..RANDOM {
        let nanos = i128::from(rng.below(NANOS as usize) as u32);
        time_agrees(i128::from(instant(&mut rng)) * NANOS + nanos, LENGTH);
    }
}

/// The times that are farthest from 1970: refusal 9 also where the output is too short.
#[test]
fn times_that_no_date_holds() {
    let far = [u64::MAX, i64::MAX as u64 + 1, i64::MAX as u64, i64::MAX as u64 - 1, 1 << 62]
        .map(Duration::from_secs);
    let parts = far.iter().flat_map(|far| [*far, far.saturating_sub(Duration::from_nanos(1))]);
    let times: Vec<_> =
        parts.flat_map(|far| [UNIX_EPOCH.checked_add(far), UNIX_EPOCH.checked_sub(far)]).flatten().collect();
    assert!(times.len() >= 4, "{times:?}");
    for time in times {
        for room in [0, LENGTH] {
            assert_eq!(
                lend(room, |out| date_write_time(time, out), |_| Vec::new()),
                Err(at(9, 0)),
                "{time:?}"
            );
        }
        assert_eq!(date_read_at(b"Sun, 06 Nov 1994 08:49:37 GMT", time), Err(at(9, 0)), "{time:?}");
        assert_eq!(date_read_at(&[0; 8_193], time), Err(at(9, 0)), "{time:?}");
    }
}

/// The years that are read of the first of March, every two digits under every name of a day. One name fits; any other
/// is refusal 4.
fn years(read: impl Fn(&[u8]) -> Result<Date, Refusal>) -> Result<Vec<u32>, Refusal> {
    let named = |digits| DAY_NAMES.map(|name| format!("{name}, 01-Mar-{digits:02} 00:00:00 GMT"));
    let answers = (0..100).flat_map(named).map(|text| read(text.as_bytes()).map(|date| date.year));
    let mut years = answers.filter(|answer| *answer != Err(at(4, 0))).collect::<Result<Vec<_>, _>>()?;
    years.sort_unstable();
    Ok(years)
}

/// "the year from Y-49 to Y+50 with those digits"
fn window(present_year: u32) -> Vec<u32> {
    (present_year - 49..=present_year + 50).collect()
}

/// The last nanosecond of a year and the first of the next, at both ends of the present years and of all years.
#[test]
fn present_years_of_times() {
    for (year, start) in [
        (1583, -12_212_553_600),
        (1632, -10_666_252_800),
        (1633, -10_634_630_400),
        (1969, -31_536_000),
        (1970, 0),
        (1971, 31_536_000),
        (2027, 1_798_761_600),
        (9949, 251_792_928_000),
        (9950, 251_824_464_000),
        (10_000, 253_402_300_800),
    ] {
        for (year, nanos) in [(year - 1, start * NANOS - 1), (year, start * NANOS)] {
            let expected = match year {
                1632..=9949 => Ok(window(year)),
                _ => Err(at(9, 0)),
            };
            assert_eq!(years(|text| date_read_at(text, time(nanos))), expected, "{nanos} ns");
        }
    }
}

#[test]
fn dates_at_random_times() {
    let mut rng = Rng::new(45);
    for _ in 0..RANDOM {
        let seconds = instant(&mut rng);
        // A year outside every range where no date holds the time.
        let year = date::at(seconds).map_or(0, |now| now.year.into());
        let text = match rng.below(3) {
            0 => any(Kind::Date, &mut rng),
            1 => rfc850_date(present_year(&mut rng), &mut rng),
            _ => rfc850_date(year, &mut rng),
        };
        let now = time(i128::from(seconds) * NANOS + i128::from(rng.below(NANOS as usize) as u32));
        let expected = date::read(&text, year).map(date_of).map_err(refusal);
        assert_eq!(date_read_at(&text, now), expected, "{text:?} at {seconds}");
    }
}

/// The clock's year may change while the test runs.
#[test]
fn dates_now() {
    let clock = || {
        let since = UNIX_EPOCH.elapsed().expect("a clock past 1970").as_secs() as i64;
        u32::from(date::at(since).expect("a clock before 10000").year)
    };
    let before = clock();
    let answer = years(date_read_now);
    assert!((before..=clock()).any(|year| answer == Ok(window(year))), "{answer:?}");
}

#[test]
fn dates_as_times() {
    let mut rng = Rng::new(44);
    let near = [EARLIEST, -1, 0, 1, LATEST];
    for index in 0..RANDOM {
        let seconds = near.get(index).copied().unwrap_or_else(|| instant(&mut rng));
        let mut text = [0; LENGTH];
        assert_eq!(date_write(seconds, &mut text).is_ok(), (EARLIEST..=LATEST).contains(&seconds));
        let year = present_year(&mut rng).clamp(FIRST_PRESENT_YEAR, LAST_PRESENT_YEAR);
        if !(EARLIEST..=LATEST).contains(&seconds) {
            continue;
        }
        let date = date_read(&text, year).expect("what is written is read");
        assert_eq!(date.system_time(), Some(time(i128::from(seconds) * NANOS)), "{seconds}");
        let mut again = [0; LENGTH];
        assert_eq!(date.system_time().map(|time| date_write_time(time, &mut again)), Some(Ok(LENGTH)));
        assert_eq!(again, text);
    }
}

/// A date of the caller's own may name any number of seconds.
#[test]
fn no_number_of_seconds_panics() {
    for seconds in [i64::MIN, i64::MIN + 1, i64::MAX - 1, i64::MAX] {
        let date = Date { year: 0, month: 0, day: 0, hour: 0, minute: 0, second: 0, seconds };
        if let Some(time) = date.system_time() {
            assert_eq!(date_write_time(time, &mut [0; LENGTH]), Err(at(9, 0)));
        }
    }
}

#[test]
fn bytes_of_a_part() {
    let value = b"abcdef";
    let of = |start, length| Span { start, length }.of(value);
    assert_eq!(of(0, 6), Some(&value[..]));
    assert_eq!(of(2, 3), Some(&b"cde"[..]));
    assert_eq!(of(6, 0), Some(&b""[..]));
    for (start, length) in [(7, 0), (0, 7), (6, 1), (usize::MAX, 0), (usize::MAX, 2), (1, usize::MAX)] {
        assert_eq!(of(start, length), None, "{start} {length}");
    }
}

#[test]
fn bytes_of_a_range() {
    let entity = b"abcdef";
    let of = |first, last| Range { first, last }.of(entity);
    assert_eq!(of(0, 5), Some(&entity[..]));
    assert_eq!(of(2, 4), Some(&b"cde"[..]));
    assert_eq!(of(5, 5), Some(&b"f"[..]));
    for (first, last) in [(0, 6), (6, 6), (3, 2), (4, 2), (0, u64::MAX), (u64::MAX, 0), (u64::MAX, u64::MAX)]
    {
        assert_eq!(of(first, last), None, "{first} {last}");
    }
    let length = |first, last| Range { first, last }.length();
    assert_eq!((length(0, 0), length(2, 4), length(u64::MAX, u64::MAX)), (1, 3, 1));
    assert_eq!((length(3, 2), length(u64::MAX, 0)), (0, 0));
    assert_eq!((length(1, u64::MAX), length(0, u64::MAX)), (u64::MAX, u64::MAX));
}

/// In the entity whose length was given each range has its bytes, as many as its length says.
#[test]
fn ranges_in_their_entity() {
    let entity = b"abcdef";
    let Ok(Ranges::Satisfiable(set)) = ranges_read(b"bytes=-2,0-0,3-99", 6) else { panic!("three ranges") };
    let expected: [(&[u8], RangeInclusive<u64>); 3] = [(b"ef", 4..=5), (b"a", 0..=0), (b"def", 3..=5)];
    for (range, (bytes, positions)) in set.ranges().iter().zip(expected) {
        assert_eq!(range.of(entity), Some(bytes));
        assert_eq!(range.length(), bytes.len() as u64);
        assert_eq!(RangeInclusive::from(*range), positions);
    }
    assert_eq!(set.ranges().len(), 3);
}

#[test]
fn parts_in_the_value_that_was_read() {
    let tag = etag_read(b"w/\"xyzzy\"").unwrap();
    assert_eq!(tag.opaque_in(b"w/\"xyzzy\""), Some(&b"xyzzy"[..]));
    assert_eq!(tag.opaque_in(b"w/\""), None);
    assert_eq!(language_read(b"x-pig-latin").unwrap().primary_in(b"x-pig-latin"), Some(&b"x"[..]));

    let value = b"text/html \t; charset=\"utf\\-8\" ;q=\"\"";
    let media = media_read(value).unwrap();
    assert_eq!((media.main_in(value), media.subtype_in(value)), (Some(&b"text"[..]), Some(&b"html"[..])));
    let parts: Vec<_> =
        media.parameters().iter().map(|p| (p.attribute_in(value), p.value_in(value))).collect();
    let expected: [(&[u8], &[u8]); 2] = [(b"charset", b"utf\\-8"), (b"q", b"")];
    assert_eq!(parts, expected.map(|(attribute, value)| (Some(attribute), Some(value))));
    assert_eq!(media_charset(value).unwrap().name_in(value), Some(&b"utf\\-8"[..]));
    assert_eq!(Charset::Latin1.name_in(b"text/html"), Some(&b"ISO-8859-1"[..]));
    assert_eq!(Charset::NotStated.name_in(b"image/gif"), None);

    let value = b"http://abc.com:80/~smith/home.html?";
    let url = url_read(value).unwrap();
    assert_eq!(url.host_in(value), Some(&b"abc.com"[..]));
    assert_eq!((url.path_in(value), url.query_in(value)), (Some(&b"/~smith/home.html"[..]), Some(&b""[..])));
    let url = url_read(b"http://a").unwrap();
    assert_eq!((url.path_in(b"http://a"), url.query_in(b"http://a")), (None, None));
}

/// Equal URLs are one key, by hash and by order, and different ones are several.
#[test]
fn normal_urls_as_keys() {
    let urls: [&[u8]; 6] =
        [b"http://a", b"HTTP://A:80/", b"http://a:/?", b"http://a/%41", b"http://a/A", b"http://a/a"];
    let forms: Vec<NormalUrl> = urls.iter().map(|url| url_normalized(url).unwrap()).collect();
    let texts: Vec<String> = forms.iter().map(NormalUrl::to_string).collect();
    assert_eq!(texts, ["http://a/", "http://a/", "http://a/?", "http://a/A", "http://a/A", "http://a/a"]);
    assert_eq!(forms.iter().collect::<HashSet<_>>().len(), 4);
    assert!(forms.iter().collect::<BTreeSet<_>>().iter().map(|form| form.as_str()).eq([
        "http://a/",
        "http://a/?",
        "http://a/A",
        "http://a/a"
    ]));
    for (form, text) in forms.iter().zip(&texts) {
        let (borrowed, lent): (&[u8], &[u8]) = (form.borrow(), form.as_ref());
        assert_eq!((form.as_bytes(), borrowed, lent), (text.as_bytes(), text.as_bytes(), text.as_bytes()));
        assert_eq!(format!("{form:?}"), format!("NormalUrl({text:?})"));
        assert_eq!(NormalUrl::try_from(text.as_bytes()).as_ref(), Ok(form));
    }
    assert_eq!(NormalUrl::try_from(&b"http://a?x"[..]), Err(Refusal::Malformed { place: 8 }));
}
