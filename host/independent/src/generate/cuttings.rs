//! Cuttings of an input into pieces, as lists of lengths, and quotas for the calls that take the pieces.

use super::Rng;

/// Up to this length `cuttings` gives every cutting.
const SHORT: usize = 12;
/// How many random ones it gives.
const RANDOM: usize = 24;

/// The lengths of the pieces between the places before which a cut is made.
fn lengths(length: usize, mut cut_before: impl FnMut(usize) -> bool) -> Vec<usize> {
    let (mut pieces, mut start) = (Vec::new(), 0);
    for place in 1..length {
        if cut_before(place) {
            pieces.push(place - start);
            start = place;
        }
    }
    if start < length {
        pieces.push(length - start);
    }
    pieces
}

/// Every cutting of `length` bytes, at most 64 of them, into pieces that are not empty; of 0 bytes, the one into none.
pub fn every_cutting(length: usize) -> impl Iterator<Item = Vec<usize>> {
    let places = length.saturating_sub(1);
    (0..1_u64 << places).map(move |cuts| lengths(length, |place| cuts >> (place - 1) & 1 == 1))
}

/// Pieces of one average length, with empty ones among them.
fn random_cutting(length: usize, rng: &mut Rng) -> Vec<usize> {
    let average = rng.pick(&[1, 2, 4, 16, 100, 1_000]);
    let empty = rng.pick(&[2, 5, 20]);
    let mut pieces = Vec::new();
    for piece in lengths(length, |_| rng.once_in(average)) {
        while rng.once_in(empty) {
            pieces.push(0);
        }
        pieces.push(piece);
    }
    if rng.once_in(empty) {
        pieces.push(0);
    }
    pieces
}

/// Cuttings of `length` bytes: every one of a short length; of a longer one the single piece and pieces of one byte;
/// then random ones, which may have empty pieces.
pub fn cuttings(length: usize, rng: &mut Rng) -> Vec<Vec<usize>> {
    let mut cuttings = match length {
        0..=SHORT => every_cutting(length).collect(),
        _ => vec![vec![length], vec![1; length]],
    };
    cuttings.extend((0..RANDOM).map(|_| random_cutting(length, rng)));
    cuttings
}

/// The pieces of an input by a cutting of its length.
pub fn pieces_of<'a>(input: &'a [u8], cutting: &'a [usize]) -> impl Iterator<Item = &'a [u8]> {
    let mut rest = input;
    cutting.iter().map(move |length| {
        let (piece, behind) = rest.split_at(*length);
        rest = behind;
        piece
    })
}

/// Valid quotas below, at and above the length of a piece.
pub fn quotas(length: usize) -> Vec<usize> {
    let near = [length.saturating_sub(1), length, length.saturating_add(1)];
    let mut quotas = [&[1, 2, length / 2, usize::MAX], &near[..]].concat();
    quotas.retain(|quota| *quota > 0);
    quotas.sort_unstable();
    quotas.dedup();
    quotas
}
