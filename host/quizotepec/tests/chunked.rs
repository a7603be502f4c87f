//! The chunked reader against the independent one, and demand 3 by trying every beginning and longer inputs.

mod common;

use common::{lend, long_names, names, raw, refusal, span, whole, RANDOM};
use independent::chunked::decode;
use independent::generate::{any, at_limits, body, cut, damage, every, rooms, short, Kind, Rng};
use independent::generate::{body_with_names, trailers_with, trailers_with_each_byte};
use quizotepec::{chunked_decode, Decoded, Refusal};

/// How many bodies are tried at every beginning.
const CUT: usize = 2_000;
const AMPLE: usize = 64;

/// Our answer and the bytes that it wrote.
type Answer = (Decoded, Vec<u8>);

/// Both decode alike: the answer, the trailer, every lent byte and those around.
fn agree(input: &[u8], room: usize) -> Answer {
    let (expected, trailer, data) = match decode(input, room) {
        independent::chunked::Decoded::Whole { taken, trailer, data } => {
            let whole = Decoded::Whole { taken, length: data.len(), trailer: span(trailer) };
            (whole, Some(trailer.of(input)), data)
        }
        independent::chunked::Decoded::More => (Decoded::More, None, Vec::new()),
        independent::chunked::Decoded::Refused(r) => (Decoded::Refused(refusal(r)), None, Vec::new()),
    };
    let answer = lend(room, |out| chunked_decode(input, out), |_| data.clone());
    assert_eq!(answer, expected, "{input:?} in room {room}");
    assert_eq!(answer.trailer_in(input), trailer, "{input:?}");
    (answer, data)
}

/// Our answer alone, with its bytes.
fn ours(input: &[u8], room: usize) -> Answer {
    let mut out = vec![0; room];
    let answer = chunked_decode(input, &mut out);
    let length = if let Decoded::Whole { length, .. } = answer { length } else { 0 };
    out.truncate(length);
    (answer, out)
}

/// "More" for each beginning up to the byte that decides, one answer from then on, whatever follows.
fn stands(input: &[u8], room: usize, rng: &mut Rng) {
    let last = agree(input, room);
    let decided = match last.0 {
        Decoded::Whole { taken, .. } => taken,
        Decoded::Refused(r) => r.place() + 1,
        Decoded::More => usize::MAX,
    };
    for end in 0..=input.len() {
        let expected = if end < decided { (Decoded::More, Vec::new()) } else { last.clone() };
        assert_eq!(ours(&input[..end], room), expected, "{end} bytes of {input:?} in room {room}");
    }
    if last.0 != Decoded::More {
        let longer = [input, &any(Kind::Chunked, rng)].concat();
        assert_eq!(agree(&longer, room), last, "{longer:?} in room {room}");
    }
    without_trailer(input, room, last);
}

/// The closing CRLF stands behind the trailer; without the trailer it closes a body of the same data.
fn without_trailer(input: &[u8], room: usize, (answer, data): Answer) {
    let Decoded::Whole { taken, trailer, .. } = answer else { return };
    assert_eq!(&input[trailer.start + trailer.length..taken], b"\r\n", "{input:?}");
    let shorter = [&input[..trailer.start], b"\r\n"].concat();
    assert_eq!(ours(&shorter, room), (whole(shorter.len(), data.len()), data), "{input:?} in room {room}");
}

/// More room changes no answer but refusal 7.
fn roomier(input: &[u8], rooms: &[usize]) {
    for pair in rooms.windows(2) {
        let less = ours(input, pair[0]);
        if !matches!(less.0, Decoded::Refused(Refusal::BodyTooLarge { .. })) {
            assert_eq!(ours(input, pair[1]), less, "{input:?} in rooms {pair:?}");
        }
    }
}

#[test]
fn short_strings() {
    for input in short(Kind::Chunked).iter().flat_map(|family| every(*family)) {
        for room in [0, 1, 2, AMPLE] {
            agree(&input, room);
        }
    }
}

#[test]
fn limits() {
    for input in at_limits(Kind::Chunked) {
        for room in [0, 1, 3, AMPLE] {
            agree(&input, room);
        }
    }
}

#[test]
fn every_cut_of_bodies() {
    let mut rng = Rng::new(31);
    for _ in 0..CUT {
        let (mut input, length) = body(&mut rng);
        let size = input.len();
        input.extend(any(Kind::Chunked, &mut rng));
        let rooms = rooms(length);
        for room in &rooms {
            let whole = match agree(&input, *room).0 {
                Decoded::Whole { taken, length: data, .. } => (taken, data) == (size, length),
                _ => false,
            };
            assert_eq!(whole, *room >= length, "{input:?} in room {room}");
            stands(&input, *room, &mut rng);
        }
        roomier(&input, &rooms);
    }
}

#[test]
fn every_cut_of_damaged_bodies() {
    let mut rng = Rng::new(32);
    for _ in 0..CUT {
        let input = any(Kind::Chunked, &mut rng);
        let rooms = rooms(rng.below(60));
        rooms.iter().for_each(|room| stands(&input, *room, &mut rng));
        roomier(&input, &rooms);
    }
}

#[test]
fn every_cut_at_the_limits() {
    let mut rng = Rng::new(33);
    for input in at_limits(Kind::Chunked).iter().filter(|input| input.len() < 1_100) {
        stands(input, AMPLE, &mut rng);
    }
}

#[test]
fn every_cut_of_names() {
    let mut rng = Rng::new(36);
    let placed = names(&mut rng).into_iter().flat_map(|name| trailers_with(&name));
    for input in placed.chain(trailers_with_each_byte()) {
        stands(&input, AMPLE, &mut rng);
        roomier(&input, &[0, 7, 8, AMPLE]);
    }
}

#[test]
fn names_longer_than_forbidden_ones() {
    for input in long_names() {
        agree(&input, 0);
    }
}

#[test]
fn every_cut_of_random_trailers() {
    let mut rng = Rng::new(37);
    for _ in 0..CUT {
        let input = body_with_names(&mut rng);
        stands(&input, 0, &mut rng);
        stands(&damage(input, &mut rng), 0, &mut rng);
    }
}

#[test]
fn random_trailers() {
    let mut rng = Rng::new(38);
    for _ in 0..RANDOM {
        let damaged = damage(body_with_names(&mut rng), &mut rng);
        agree(&cut(damaged, &mut rng), 0);
    }
}

#[test]
fn random_inputs() {
    let mut rng = Rng::new(34);
    for _ in 0..RANDOM {
        let input = any(Kind::Chunked, &mut rng);
        let room = rng.below(160);
        agree(&input, room);
    }
}

#[test]
fn fields_without_a_meaning_are_zero() {
    let mut rng = Rng::new(35);
    for _ in 0..RANDOM {
        let input = any(Kind::Chunked, &mut rng);
        let mut out = vec![0; rng.below(160)];
        // SAFETY: the pointers and the lengths are those of two vectors.
        let b = unsafe { raw::qz_chunked_decode(input.as_ptr(), input.len(), out.as_mut_ptr(), out.len()) };
        let raw::QzBody { state, number, place, taken, length, trailer_start, trailer_length } = b;
        let (refusal, counts) = ([number.into(), place], [taken, length, trailer_start, trailer_length]);
        let unused = match state {
            raw::WHOLE => refusal.to_vec(),
            raw::MORE => [&refusal[..], &counts].concat(),
            raw::REFUSED => counts.to_vec(),
            _ => panic!("no state {state}"),
        };
        assert!(unused.iter().all(|field| *field == 0), "{state}: {refusal:?}, {counts:?}");
    }
}
