//! Byte ranges against the independent implementation.

mod common;

use common::{changes, raw, refusal, RANDOM};
use independent::generate::{
    capped_range_sets, counted_range_sets, damaged_range_set, entity_lengths, long_range_sets, range_set,
    short_range_sets, Rng,
};
use independent::ranges::{self, NUMBER_LIMIT};
use quizotepec::{ranges_read, Range, Ranges};

/// Entity lengths for the exhaustive tests: none, one byte, around the numbers that occur, the largest and one more.
const LENGTHS: [u64; 6] = [0, 1, 10, 10_000, NUMBER_LIMIT, NUMBER_LIMIT + 1];
/// How many well-formed sets are cut at every place.
const CUT: usize = 2_000;

/// The independent answer in the wrapper's terms: none of the ranges is "unsatisfiable".
fn expected(input: &[u8], length: u64) -> Result<Vec<Range>, quizotepec::Refusal> {
    let range = |r: ranges::Range| Range { first: r.first, last: r.last };
    let listed = |answer| match answer {
        ranges::Ranges::Satisfiable(ranges) => ranges.into_iter().map(range).collect(),
        ranges::Ranges::Unsatisfiable => Vec::new(),
    };
    ranges::read(input, length).map(listed).map_err(refusal)
}

/// Holds both readers to one input.
fn agree(input: &[u8], length: u64) {
    let answer = ranges_read(input, length).map(|answer| match answer {
        Ranges::Satisfiable(set) => {
            assert!(!set.ranges().is_empty(), "{input:?} in {length}: satisfiable without a range");
            set.ranges().to_vec()
        }
        Ranges::Unsatisfiable => Vec::new(),
    });
    let expected = expected(input, length);
    assert_eq!(answer, expected, "{input:?} in {length}");
    // SAFETY: the pointer and the length are those of a slice.
    let r = unsafe { raw::qz_ranges_read(input.as_ptr(), input.len(), length) };
    let unsatisfiable = expected.as_ref().is_ok_and(Vec::is_empty);
    let used = expected.map_or(0, |ranges| ranges.len());
    assert_eq!((r.unsatisfiable, r.count), (unsatisfiable, used), "{input:?} in {length}");
    assert!(r.number != 0 || r.place == 0, "{input:?} in {length}: the place of an answer");
    let zero = r.ranges[used..].iter().all(|range| range.first == 0 && range.last == 0);
    assert!(zero, "{input:?} in {length}: unused entries");
}

fn agree_in_all(inputs: impl IntoIterator<Item = Vec<u8>>) {
    for input in inputs {
        LENGTHS.into_iter().for_each(|length| agree(&input, length));
    }
}

#[test]
fn short_sets() {
    agree_in_all(short_range_sets());
}

#[test]
fn every_byte_at_every_place() {
    for text in ["bytes=0-49 ,\t5-,-7", "bytes=5-3", "bytes=99999999999999999999-9223372036854775807"] {
        changes(text).for_each(|input| agree(&input, 10_000));
    }
}

#[test]
fn about_sixteen_elements() {
    for input in counted_range_sets() {
        agree(&input, 10_000);
    }
}

#[test]
fn long_sets() {
    agree_in_all(long_range_sets());
}

#[test]
fn numbers_at_the_cap() {
    agree_in_all(capped_range_sets());
}

#[test]
fn every_cut() {
    let mut rng = Rng::new(26);
    for _ in 0..CUT {
        let length = rng.word() >> rng.below(64);
        let input = range_set(length, &mut rng);
        (0..=input.len()).for_each(|end| agree(&input[..end], length));
    }
}

fn random(make: fn(u64, &mut Rng) -> Vec<u8>, seed: u64) {
    let mut rng = Rng::new(seed);
    for _ in 0..RANDOM {
        let lengths = entity_lengths(&mut rng);
        let length = rng.pick(&lengths);
        agree(&make(length, &mut rng), length);
    }
}

#[test]
fn random_sets() {
    random(range_set, 27);
}

#[test]
fn random_damaged_sets() {
    random(damaged_range_set, 28);
}
