//! The plain readers of header values, which are for speed, against those from the grammar.

use independent::generate::{any, at_limits, cut, damage, every, extend, short, valid, Kind, Rng};
use independent::generate::{
    capped_range_sets, counted_range_sets, damaged_range_set, entity_lengths, long_range_sets, range_set,
    short_range_sets,
};
use independent::generate::{long_urls, readable_url};
use independent::plain_values::RangeTable;
use independent::ranges::{self, Range, Ranges};
use independent::{delta, etag, plain_values, url, version, Refusal};

const ROUNDS: usize = 20_000;
/// Each of these is tried in several changed forms.
const VALUE_ROUNDS: usize = 8_000;
/// Each of these is tried with all entity lengths.
const SET_ROUNDS: usize = 2_000;

fn agree(input: &[u8]) {
    assert_eq!(plain_values::delta(input), delta::read(input), "{input:?}");
}

/// A kind of header values, and whether both readers agree on an input.
type Readers = (Kind, fn(&[u8]) -> bool);

fn same<T: PartialEq>(plain: Result<T, Refusal>, read: Result<T, Refusal>) -> bool {
    plain == read
}

const READERS: [Readers; 3] = [
    (Kind::Version, |input| same(plain_values::version(input), version::read(input))),
    (Kind::EntityTag, |input| same(plain_values::etag(input), etag::read(input))),
    (Kind::Url, |input| same(plain_values::url(input), url::read(input))),
];

fn agree_on(inputs: impl IntoIterator<Item = Vec<u8>>, (kind, agree): Readers) {
    for input in inputs {
        assert!(agree(&input), "{kind:?} {:?}", String::from_utf8_lossy(&input));
    }
}

#[test]
fn random_values() {
    let mut rng = Rng::new(5);
    for readers in READERS {
        let kind = readers.0;
        for _ in 0..VALUE_ROUNDS {
            let well_formed = valid(kind, &mut rng);
            let changed = [
                cut(well_formed.clone(), &mut rng),
                damage(well_formed.clone(), &mut rng),
                extend(well_formed.clone(), kind, &mut rng),
                any(kind, &mut rng),
            ];
            agree_on(changed.into_iter().chain([well_formed]), readers);
        }
    }
}

#[test]
fn values_at_limits() {
    for readers in READERS {
        agree_on(at_limits(readers.0), readers);
    }
}

#[test]
fn short_values() {
    for readers in READERS {
        short(readers.0).iter().for_each(|family| agree_on(every(*family), readers));
    }
}

/// Each byte in each place of a value, in its stead and before it, and behind the value.
#[test]
fn each_byte_of_values() {
    let values: [&[u8]; 3] = [b"hTTp/0010.65535", b"w/\"a\\\"\xff \"", b"http://a-B.:080/p%41%2f;?q?%7e"];
    for (readers, value) in READERS.into_iter().zip(values) {
        for (place, byte) in (0..=value.len()).flat_map(|place| (0..=255).map(move |byte| (place, byte))) {
            let (before, behind) = value.split_at(place);
            let replaced = [before, &[byte], behind.get(1..).unwrap_or_default()].concat();
            agree_on([replaced, [before, &[byte], behind].concat()], readers);
        }
    }
}

/// Numbers with every count of digits and around the limit, as a part of a version and as a port.
#[test]
fn each_number() {
    let [versions, _, urls] = READERS;
    let around_limit = (0..=10_100).step_by(7).chain(65_400..=65_600);
    for number in around_limit.chain([80, 99_999, 100_000, 655_350, 655_359, 655_360, 999_999]) {
        agree_on([format!("HTTP/{number}.{number}").into_bytes()], versions);
        agree_on([format!("HTTP/1.0{number}").into_bytes()], versions);
        agree_on([format!("http://a:{number}").into_bytes(), format!("http://a:0{number}/").into()], urls);
    }
}

#[test]
fn readable_and_long_urls() {
    let (mut rng, urls) = (Rng::new(6), READERS[2]);
    for _ in 0..ROUNDS {
        let readable = readable_url(&mut rng);
        agree_on([damage(readable.clone(), &mut rng), readable], urls);
    }
    agree_on(long_urls(), urls);
}

#[test]
fn random_seconds() {
    let mut rng = Rng::new(1);
    for _ in 0..ROUNDS {
        agree(&any(Kind::Delta, &mut rng));
    }
}

#[test]
fn seconds_at_limits() {
    at_limits(Kind::Delta).iter().for_each(|input| agree(input));
}

#[test]
fn short_seconds() {
    for family in short(Kind::Delta) {
        every(*family).for_each(|input| agree(&input));
    }
}

/// Each byte alone, and behind digits under and above the limit.
#[test]
fn each_byte_of_seconds() {
    for byte in 0..=255 {
        for digits in [&b""[..], b"1", b"214748364", b"9999999999"] {
            agree(&[digits, &[byte]].concat());
        }
    }
}

fn as_ranges(table: RangeTable) -> Ranges {
    assert!(table.ranges[table.count..].iter().all(|unused| *unused == Range::default()));
    match table.left() {
        [] => Ranges::Unsatisfiable,
        left => Ranges::Satisfiable(left.to_vec()),
    }
}

fn agree_on_ranges(input: &[u8], entity_length: u64) {
    let plain = plain_values::ranges(input, entity_length).map(as_ranges);
    let text = String::from_utf8_lossy(input);
    assert_eq!(plain, ranges::read(input, entity_length), "{text:?} of {entity_length}");
}

fn agree_on_sets(inputs: impl IntoIterator<Item = Vec<u8>>, entity_lengths: &[u64]) {
    for input in inputs {
        entity_lengths.iter().for_each(|length| agree_on_ranges(&input, *length));
    }
}

#[test]
fn random_ranges() {
    let mut rng = Rng::new(2);
    for _ in 0..SET_ROUNDS {
        for length in entity_lengths(&mut rng) {
            agree_on_ranges(&range_set(length, &mut rng), length);
            agree_on_ranges(&damaged_range_set(length, &mut rng), length);
        }
    }
}

#[test]
fn ranges_at_limits() {
    let lengths = entity_lengths(&mut Rng::new(3));
    agree_on_sets(capped_range_sets(), &lengths);
    agree_on_sets(long_range_sets(), &[10, u64::MAX]);
    agree_on_sets(counted_range_sets(), &[0, 10_000]);
}

#[test]
fn short_ranges() {
    agree_on_sets(short_range_sets(), &entity_lengths(&mut Rng::new(4)));
}
