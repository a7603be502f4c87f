//! The plain decoder in pieces, which is for speed, against the one from the request.

use independent::chunked::encode;
use independent::generate::{
    allowed_names, body_with_names, forbidden_names, trailers_with, trailers_with_each_byte,
};
use independent::generate::{any, at_limits, body, cuttings, damage, every, pieces_of, quotas, rooms, short};
use independent::generate::{Kind, Rng};
use independent::number::FRAMED_TOO_LONG;
use independent::pieces::{Fed, Pieces, FRAMED_LIMIT};
use independent::plain::Answer;
use independent::plain_pieces::PlainPieces;
use independent::{Refusal, Span};
use std::ops::RangeInclusive;

const ROUNDS: usize = 1_000;
const ROOM: usize = 8;
const AMPLE: usize = 4_096;
const LENT: u8 = 0xA5;
/// A body with every part.
const BODY: &[u8] = b"2;a=b;c=\"\\\"d\"\r\nxy\r\n00;e\r\nF:\tg\r\nH:\r\n\r\n";

/// Both readers of a body, and their outputs.
struct Both {
    plain: PlainPieces,
    plain_out: Vec<u8>,
    pieces: Pieces,
    out: Vec<u8>,
}

impl Both {
    fn after(room: usize, taken: u64) -> Self {
        let (plain, pieces) = (PlainPieces::after(room, taken), Pieces::after(room, taken));
        Both { plain, plain_out: vec![LENT; room], pieces, out: vec![LENT; room] }
    }

    /// Both answer alike, and leave the same output.
    fn feed(&mut self, piece: &[u8], quota: usize) -> Fed {
        let expected = self.pieces.feed(piece, quota, &mut self.out);
        assert_eq!(self.plain.feed(piece, quota, &mut self.plain_out), expected, "{piece:?}, {quota}");
        assert!(self.plain_out == self.out, "{piece:?}, {quota}");
        expected
    }

    /// Calls that are no answer about the body: no quota, and outputs of other lengths.
    fn feed_out_of_range(&mut self, piece: &[u8]) {
        self.feed(piece, 0);
        let room = self.out.len();
        for length in [room + 1, room / 2, 0].into_iter().filter(|length| *length != room) {
            let mut other = vec![LENT; length];
            let expected = self.pieces.feed(piece, 1, &mut other);
            assert_eq!(self.plain.feed(piece, 1, &mut other), expected, "{piece:?}");
            assert!(other.iter().all(|byte| *byte == LENT));
        }
    }
}

/// Feeds an input that begins `taken` bytes behind the start of a body, and goes on after the answer.
fn agree_after(taken: u64, input: &[u8], cutting: &[usize], quota: usize, room: usize) -> Answer {
    let mut both = Both::after(room, taken);
    let mut answer = Answer::More;
    for mut piece in pieces_of(input, cutting) {
        while !piece.is_empty() && answer == Answer::More {
            let fed = both.feed(piece, quota);
            answer = fed.answer;
            piece = &piece[fed.taken..];
        }
    }
    both.feed_out_of_range(b"0");
    assert_eq!(both.feed(b"", 1), Fed { taken: 0, answer });
    if answer != Answer::More {
        assert_eq!(both.feed(b"0", 1), Fed { taken: 0, answer });
    }
    answer
}

fn agree(input: &[u8], cutting: &[usize], quota: usize, room: usize) -> Answer {
    agree_after(0, input, cutting, quota, room)
}

#[test]
fn well_formed_bodies() {
    let mut rng = Rng::new(1);
    for _ in 0..ROUNDS {
        let (input, length) = body(&mut rng);
        for cutting in cuttings(input.len(), &mut rng) {
            let (quota, room) = (rng.pick(&quotas(input.len())), rng.pick(&rooms(length)));
            let whole = match agree(&input, &cutting, quota, room) {
                Answer::Whole { taken, length: data, .. } => (taken, data) == (input.len(), length),
                _ => false,
            };
            assert_eq!(whole, room >= length);
        }
    }
}

#[test]
fn long_bodies() {
    let mut rng = Rng::new(2);
    let data: Vec<u8> = (0..AMPLE).map(|_| rng.byte()).collect();
    for chunk_len in [1, 16, 1_000, AMPLE] {
        let input = encode(&data, chunk_len, usize::MAX).expect("a frame");
        for cutting in cuttings(input.len(), &mut rng).iter().take(8) {
            let trailer = Span { start: input.len() - 2, length: 0 };
            let whole = Answer::Whole { taken: input.len(), length: AMPLE, trailer };
            assert_eq!(agree(&input, cutting, usize::MAX, AMPLE), whole);
        }
    }
}

#[test]
fn damaged_bodies() {
    let mut rng = Rng::new(3);
    for _ in 0..ROUNDS {
        let input = any(Kind::Chunked, &mut rng);
        let (quota, room) = (rng.pick(&quotas(input.len())), rng.below(60));
        for cutting in cuttings(input.len(), &mut rng) {
            agree(&input, &cutting, quota, room);
        }
    }
}

/// In one piece, in two cut at every byte, and in pieces of one byte.
fn agree_cut_anywhere(input: &[u8]) {
    let length = input.len();
    let two = (0..=length).map(|first| vec![first, length - first]);
    for cutting in two.chain([vec![1; length]]) {
        agree(input, &cutting, usize::MAX, ROOM);
    }
}

#[test]
fn names_in_trailers() {
    let mut rng = Rng::new(5);
    for name in [forbidden_names(&mut rng), allowed_names()].concat() {
        trailers_with(&name).iter().for_each(|input| agree_cut_anywhere(input));
    }
    trailers_with_each_byte().iter().for_each(|input| agree_cut_anywhere(input));
    for _ in 0..ROUNDS {
        let input = body_with_names(&mut rng);
        agree_cut_anywhere(&input);
        agree_cut_anywhere(&damage(input, &mut rng));
    }
}

#[test]
fn limits() {
    let mut rng = Rng::new(4);
    for input in at_limits(Kind::Chunked) {
        for cutting in cuttings(input.len(), &mut rng).iter().take(4) {
            let (quota, room) = (rng.pick(&quotas(100)), rng.pick(&[0, 2, 3, AMPLE]));
            agree(&input, cutting, quota, room);
        }
    }
}

#[test]
fn arguments_out_of_range_at_each_byte() {
    for room in [0, 1, ROOM] {
        let mut both = Both::after(room, 0);
        for byte in BODY {
            both.feed_out_of_range(&[*byte]);
            both.feed(&[*byte], 1);
        }
        both.feed_out_of_range(b"");
    }
}

/// Each byte in each place of a body with every part, in its stead.
#[test]
fn each_byte() {
    for (place, byte) in (0..BODY.len()).flat_map(|place| (0..=255).map(move |byte| (place, byte))) {
        let input = [&BODY[..place], &[byte], &BODY[place + 1..]].concat();
        agree_cut_anywhere(&input);
    }
}

#[test]
fn short_bodies() {
    for input in short(Kind::Chunked).iter().flat_map(|family| every(*family)) {
        for cutting in [vec![input.len()], vec![1; input.len()]] {
            agree(&input, &cutting, usize::MAX, ROOM);
        }
    }
}

/// With the limit on the framed body before the byte of each place: in one piece, in two and in pieces of one
/// byte.
fn agree_at_limit(input: &[u8], room: usize, places: RangeInclusive<usize>) {
    let length = input.len();
    for before in places {
        let taken = FRAMED_LIMIT - before as u64;
        let front = before.min(length);
        for cutting in [vec![length], vec![front, length - front], vec![1; length]] {
            agree_after(taken, input, &cutting, usize::MAX, room);
        }
    }
}

#[test]
fn framed_limit_at_each_byte() {
    let mut rng = Rng::new(6);
    agree_at_limit(BODY, ROOM, 0..=BODY.len() + 2);
    for _ in 0..ROUNDS {
        let input = any(Kind::Chunked, &mut rng);
        agree_at_limit(&input, rng.below(100), 0..=input.len() + 2);
        let input = body_with_names(&mut rng);
        agree_at_limit(&input, 0, 0..=input.len() + 2);
    }
}

#[test]
fn all_limits_together() {
    for input in at_limits(Kind::Chunked) {
        agree_at_limit(&input, AMPLE, input.len().saturating_sub(2)..=input.len() + 1);
    }
}

/// The limit itself, and states that no body has: more was taken than is allowed.
#[test]
fn behind_the_framed_limit() {
    let refused = |place: u64| Answer::Refused(Refusal { number: FRAMED_TOO_LONG, place: place as usize });
    assert_eq!(agree_after(FRAMED_LIMIT, BODY, &[BODY.len()], 1, ROOM), refused(FRAMED_LIMIT));
    for taken in [FRAMED_LIMIT + 1, u64::MAX] {
        assert_eq!(agree_after(taken, BODY, &[BODY.len()], 1, ROOM), refused(taken));
        agree_after(taken, b";", &[1], 1, ROOM);
    }
}
