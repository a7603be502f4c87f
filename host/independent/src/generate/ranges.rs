//! Sets of byte ranges, the entity lengths that go with them, and arguments of the writer of `Content-Range`.

use super::limits::{around, padded};
use super::values::{any_case, spell_number, BLANKS, DIGITS};
use super::{cut, damage, every, Rng, Short};
use crate::ranges::{write_content_range, NUMBER_LIMIT, RANGE_LIMIT};
use crate::HEADER_LIMIT;

/// Digits, the marks of a set, a blank and a byte that is none of these.
const SHORT: Short = (b"bytes=", b"0159-, x", 5);
/// What a set is made of, and bytes that look like it.
const SET_BYTES: &[u8] = b"00123599--,,, \t=bByYx./:+\x0b\r\n";
/// The most elements of a random set.
const MOST_ELEMENTS: usize = 20;
/// Stands for some number of a hundred digits.
const HUGE: u128 = u128::MAX;
const HUGE_DIGITS: usize = 100;
/// Longer than any output that the writer of `Content-Range` needs.
const AMPLE: usize = 80;
const NOTABLE_LENGTHS: [u64; 9] =
    [0, 1, 2, 10, 10_000, NUMBER_LIMIT - 1, NUMBER_LIMIT, NUMBER_LIMIT + 1, u64::MAX];
/// How many random entity lengths are given.
const RANDOM_LENGTHS: usize = 3;

/// Entity lengths to try with a set: short ones, both sides of the limit, and random ones of every size.
pub fn entity_lengths(rng: &mut Rng) -> Vec<u64> {
    let mut lengths = NOTABLE_LENGTHS.to_vec();
    lengths.extend((0..RANDOM_LENGTHS).map(|_| rng.word() >> rng.below(64)));
    lengths
}

/// `bytes=` and every string of up to five bytes of a small alphabet.
pub fn short_range_sets() -> impl Iterator<Item = Vec<u8>> {
    every(SHORT)
}

/// From two below to two above.
fn near(middle: u128, rng: &mut Rng) -> u128 {
    (middle + rng.below(5) as u128).saturating_sub(2)
}

/// Small, inside the entity or around its end, around 2^63 or 2^64, or huge.
fn number(entity_length: u64, rng: &mut Rng) -> u128 {
    let length = u128::from(entity_length);
    match rng.below(10) {
        0..=2 => rng.below(20) as u128,
        3 | 4 => u128::from(rng.word()) % (length + 1),
        5 | 6 => near(length, rng),
        7 => near(1 << 63, rng),
        8 => near(1 << 64, rng),
        _ => HUGE,
    }
}

/// At times with few leading zeros or many.
fn spell(number: u128, rng: &mut Rng) -> Vec<u8> {
    let zeros = if rng.once_in(16) { rng.below(HUGE_DIGITS) } else { 0 };
    let digits = match number {
        HUGE => {
            [rng.string(&DIGITS[1..], 1, 1), rng.string(DIGITS, HUGE_DIGITS - 1, HUGE_DIGITS - 1)].concat()
        }
        _ => spell_number(number, rng),
    };
    [vec![b'0'; zeros], digits].concat()
}

/// First and last, first alone or a suffix; if `ordered`, the last, once capped, is not below the first.
fn element(entity_length: u64, ordered: bool, rng: &mut Rng) -> Vec<u8> {
    let (mut first, mut last) = (number(entity_length, rng), number(entity_length, rng));
    let capped = |number: u128| number.min(NUMBER_LIMIT.into());
    if ordered && capped(last) < capped(first) {
        (first, last) = (last, first);
    }
    let (first, last) = (spell(first, rng), spell(last, rng));
    match rng.below(4) {
        0 => [b"-", &last[..]].concat(),
        1 => [&first[..], b"-"].concat(),
        _ => [&first[..], b"-", &last[..]].concat(),
    }
}

/// One to twenty elements, most often few, with blanks around their commas.
fn set(entity_length: u64, ordered: bool, rng: &mut Rng) -> Vec<u8> {
    let most = rng.pick(&[2, 4, MOST_ELEMENTS]);
    let mut text = any_case(b"bytes=", rng);
    for index in 0..1 + rng.below(most) {
        if index > 0 {
            let (before, after) = (rng.string(BLANKS, 0, 2), rng.string(BLANKS, 0, 2));
            text.extend([&before[..], b",", &after[..]].concat());
        }
        text.extend(element(entity_length, ordered, rng));
    }
    text
}

/// A well-formed set; one of more than sixteen elements is refused all the same.
pub fn range_set(entity_length: u64, rng: &mut Rng) -> Vec<u8> {
    set(entity_length, true, rng)
}

/// A set with bytes replaced, inserted, removed or cut off, or with its numbers in any order.
pub fn damaged_range_set(entity_length: u64, rng: &mut Rng) -> Vec<u8> {
    let ordered = !rng.once_in(4);
    let input = set(entity_length, ordered, rng);
    match rng.below(4) {
        0 => cut(input, rng),
        1 => damage(input, rng),
        2 if !ordered => input,
        _ => change(input, rng),
    }
}

/// One to three bytes replaced, inserted or removed; the new ones are such as stand in sets.
fn change(mut input: Vec<u8>, rng: &mut Rng) -> Vec<u8> {
    for _ in 0..1 + rng.below(3) {
        let (at, byte) = (rng.below(input.len() + 1), rng.pick(SET_BYTES));
        match rng.below(3) {
            0 if at < input.len() => input[at] = byte,
            1 if at < input.len() => drop(input.remove(at)),
            _ => input.insert(at, byte),
        }
    }
    input
}

/// Sets of about sixteen elements, each alone and with one element whose last is below its first, followed by
/// nothing, by one more element, or by what is none.
pub fn counted_range_sets() -> Vec<Vec<u8>> {
    let shapes = [("0-", ","), ("-1", " , "), ("7-9", "\t,"), ("00-18446744073709551616", ",\t ")];
    let tails = ["", ",", " ", " ,\t", "x", "-", ",x", ",-", ",5-3", " , 5-3 ,", ",5-3x"];
    let mut inputs = Vec::new();
    for (plain, separator) in shapes {
        for count in around(RANGE_LIMIT) {
            // Of the first index past the elements none is backward.
            for backward in 0..=count {
                let text = |index| if index == backward { "5-3" } else { plain };
                let set = (0..count).map(text).collect::<Vec<_>>().join(separator);
                inputs.extend(tails.map(|tail| format!("bytes={set}{tail}").into_bytes()));
            }
        }
    }
    inputs
}

/// Sets of about 8,192 bytes, as they are and with another last byte.
pub fn long_range_sets() -> Vec<Vec<u8>> {
    let shapes: [(&[u8], u8, &[u8]); 12] = [
        (b"bytes=", b'0', b"-"),
        (b"bytes=", b'9', b"-"),
        (b"bytes=0-", b'0', b"7"),
        (b"bytes=0-", b'9', b""),
        (b"bytes=-", b'0', b"5"),
        (b"bytes=-", b'9', b""),
        (b"bytes=5-", b'0', b"3"),
        (b"bytes=", b'9', b"-1"),
        (b"bytes=1-2", b' ', b",3-4"),
        (b"bytes=1-2,", b'\t', b"-4"),
        (b"bytes=1-2", b' ', b""),
        (b"bytes=0-", b',', b"0-"),
    ];
    let mut inputs = Vec::new();
    for length in around(HEADER_LIMIT) {
        inputs.extend(shapes.map(|(head, filler, tail)| padded(head, filler, tail, length)));
        inputs.push([b"bytes=", &b"0-,".repeat(length)[..length - b"bytes=".len()]].concat());
    }
    let ends = |input: &Vec<u8>| b"1-, x".map(|end| [&input[..input.len() - 1], &[end]].concat());
    let changed: Vec<_> = inputs.iter().flat_map(ends).collect();
    inputs.extend(changed);
    inputs
}

/// The numbers next to 0, to entity lengths, to powers of ten and to 2^63, and those that wrap at 64 bits.
const NOTABLE_NUMBERS: [u128; 18] = [
    0,
    1,
    2,
    9,
    10,
    9_999,
    10_000,
    999_999_999_999_999_999,
    1_000_000_000_000_000_000,
    (1 << 63) - 3,
    (1 << 63) - 2,
    (1 << 63) - 1,
    1 << 63,
    (1 << 63) + 1,
    10_000_000_000_000_000_000,
    (1 << 64) - 1,
    1 << 64,
    (1 << 64) + 5,
];

/// Each pair of notable numbers as first and last, and each as first alone and as suffix; with and without
/// leading zeros.
pub fn capped_range_sets() -> Vec<Vec<u8>> {
    let mut inputs = Vec::new();
    for first in NOTABLE_NUMBERS {
        for zeros in ["", "00"] {
            let alone = [format!("bytes={zeros}{first}-"), format!("bytes=-{zeros}{first}")];
            let pairs = NOTABLE_NUMBERS.map(|last| format!("bytes={first}-{zeros}{last}"));
            inputs.extend(alone.into_iter().chain(pairs).map(String::into_bytes));
        }
    }
    inputs
}

/// Arguments of the writer of `Content-Range`: first, last, length, and the length of the output. Any may be
/// out of its range.
pub fn content_range(rng: &mut Rng) -> (u64, u64, u64, usize) {
    let lengths = entity_lengths(rng);
    let length = rng.pick(&lengths);
    let last = match rng.below(4) {
        0 => length.saturating_sub(rng.below(3) as u64),
        1 => rng.below(20) as u64,
        _ => rng.word() % length.max(1),
    };
    let first = match rng.below(4) {
        0 => last.saturating_add(1),
        1 => last,
        _ => rng.word() % last.max(1),
    };
    let needed = write_content_range(first, last, length, AMPLE).map_or(0, |text| text.len());
    let out_len = match rng.below(4) {
        0 => needed.saturating_sub(1),
        1 => needed,
        2 => needed + 1,
        _ => rng.below(AMPLE),
    };
    (first, last, length, out_len)
}
