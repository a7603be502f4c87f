//! Demand 3 of the independent decoder, by trying every beginning, longer inputs and several rooms.

use independent::chunked::{decode, encode, Decoded, FORBIDDEN_FIELDS, LINE_LIMIT, TRAILER_LIMIT};
use independent::generate::{allowed_names, body_with_names, forbidden_name, forbidden_names};
use independent::generate::{any, at_limits, body, cut, damage, every, frame, rooms, short, Kind, Rng};
use independent::generate::{trailers_with, trailers_with_each_byte};
use independent::number::{BODY_TOO_LARGE, LINE_TOO_LONG, TRAILER_TOO_LONG};
use independent::plain::{plain_decode, Answer};
use independent::{Refusal, Span};

const ROUNDS: usize = 2_000;
const MANY_ROUNDS: usize = 200_000;
const AMPLE: usize = 4_096;
const UNTOUCHED: u8 = 0xA5;

/// A whole body of all the bytes, which has no trailer.
fn whole(taken: usize, data: Vec<u8>) -> Decoded {
    Decoded::Whole { taken, trailer: Span { start: taken - 2, length: 0 }, data }
}

/// The fast decoder gives the same answer, and the same bytes when the body is whole.
fn same_as_plain(input: &[u8], room: usize, decoded: &Decoded) {
    let mut out = vec![UNTOUCHED; room];
    match (decoded, plain_decode(input, &mut out)) {
        (Decoded::Whole { taken, trailer, data }, Answer::Whole { taken: plain, length, trailer: lines }) => {
            assert_eq!((*taken, data.len(), *trailer), (plain, length, lines), "{input:?}");
            assert_eq!(&out[..length], &data[..]);
            assert!(out[length..].iter().all(|byte| *byte == UNTOUCHED));
        }
        (Decoded::More, Answer::More) => {}
        (Decoded::Refused(refusal), Answer::Refused(plain)) => assert_eq!(*refusal, plain, "{input:?}"),
        (decoded, plain) => panic!("{decoded:?} {plain:?} {input:?}"),
    }
}

/// The answers for growing beginnings: "more" up to the byte that decides, one answer from then on.
fn stands(input: &[u8], room: usize, ends: impl Iterator<Item = usize>) {
    let last = decode(input, room);
    let decided = match &last {
        Decoded::Whole { taken, .. } => *taken,
        Decoded::Refused(refusal) => refusal.place + 1,
        Decoded::More => usize::MAX,
    };
    for end in ends {
        let answer = decode(&input[..end], room);
        let expected = if end < decided { &Decoded::More } else { &last };
        assert_eq!(&answer, expected, "{end} bytes of {input:?} in room {room}");
    }
    same_as_plain(input, room.min(AMPLE), &decode(input, room.min(AMPLE)));
    without_trailer(input, room, &last);
}

/// The trailer and the closing CRLF end the body; without the trailer it is a body of the same data.
fn without_trailer(input: &[u8], room: usize, decoded: &Decoded) {
    let Decoded::Whole { taken, trailer, data } = decoded else { return };
    assert_eq!(trailer.end() + 2, *taken, "{input:?}");
    let shorter = [&input[..trailer.start], b"\r\n"].concat();
    assert_eq!(decode(&shorter, room), whole(shorter.len(), data.clone()), "{input:?}");
}

/// More room changes no answer but refusal 7.
fn roomier(input: &[u8], rooms: &[usize]) {
    for pair in rooms.windows(2) {
        let less = decode(input, pair[0]);
        if !matches!(less, Decoded::Refused(Refusal { number: BODY_TOO_LARGE, .. })) {
            assert_eq!(decode(input, pair[1]), less, "{input:?} in rooms {pair:?}");
        }
    }
}

#[test]
fn generated_bodies() {
    let mut rng = Rng::new(1);
    for _ in 0..ROUNDS {
        let (mut input, length) = body(&mut rng);
        let size = input.len();
        input.extend(any(Kind::Chunked, &mut rng));
        for room in rooms(length) {
            let whole = match decode(&input, room) {
                Decoded::Whole { taken, data, .. } => taken == size && data.len() == length,
                _ => false,
            };
            assert_eq!(whole, room >= length, "{input:?} in room {room}");
            stands(&input, room, 0..=input.len());
        }
        roomier(&input, &rooms(length));
    }
}

#[test]
fn damaged_bodies() {
    let mut rng = Rng::new(2);
    for _ in 0..ROUNDS {
        let input = any(Kind::Chunked, &mut rng);
        let rooms = rooms(rng.below(60));
        rooms.iter().for_each(|room| stands(&input, *room, 0..=input.len()));
        roomier(&input, &rooms);
    }
}

/// Names in trailers: every beginning, in rooms on both sides of the line.
#[test]
fn names_in_trailers() {
    let mut rng = Rng::new(5);
    let forbidden = FORBIDDEN_FIELDS.map(|name| name.as_bytes().to_vec());
    let names = [&forbidden[..], &allowed_names(), &[forbidden_name(&mut rng)]].concat();
    for input in names.iter().flat_map(|name| trailers_with(name)) {
        stands(&input, AMPLE, 0..=input.len());
        roomier(&input, &[0, 7, 8, AMPLE]);
    }
    for name in forbidden_names(&mut rng) {
        let input = [b"0\r\n", &name[..], b":"].concat();
        stands(&input, 0, 0..=input.len());
    }
}

/// Each beginning of a forbidden name with each byte behind it, and what may follow.
#[test]
fn names_with_each_byte() {
    for input in trailers_with_each_byte() {
        stands(&input, 0, 0..=input.len());
    }
}

#[test]
fn random_trailers() {
    let mut rng = Rng::new(6);
    for _ in 0..ROUNDS {
        let input = body_with_names(&mut rng);
        stands(&input, 0, 0..=input.len());
        let damaged = damage(input, &mut rng);
        stands(&damaged, 0, 0..=damaged.len());
    }
}

#[test]
#[ignore = "some seconds in release mode"]
fn many_random_bodies() {
    let mut rng = Rng::new(3);
    for _ in 0..MANY_ROUNDS {
        let input = any(Kind::Chunked, &mut rng);
        let room = rng.below(100);
        same_as_plain(&input, room, &decode(&input, room));
        let damaged = damage(body_with_names(&mut rng), &mut rng);
        let input = cut(damaged, &mut rng);
        same_as_plain(&input, room, &decode(&input, room));
    }
}

#[test]
fn bodies_at_limits() {
    for input in at_limits(Kind::Chunked) {
        let rooms = [0, 2, 3, AMPLE, usize::MAX];
        for room in rooms {
            let near = input.len().saturating_sub(4)..=input.len();
            stands(&input, room, near);
        }
        roomier(&input, &rooms);
    }
}

#[test]
fn short_bodies() {
    for family in short(Kind::Chunked) {
        for input in every(*family) {
            let rooms = [0, 1, 2, AMPLE];
            let answers = rooms.map(|room| decode(&input, room));
            for (room, answer) in rooms.iter().zip(&answers) {
                same_as_plain(&input, *room, answer);
                // The one byte shorter beginning is in the family, so this covers all beginnings.
                let shorter = decode(&input[..input.len().saturating_sub(1)], *room);
                assert!(shorter == Decoded::More || shorter == *answer, "{input:?} in room {room}");
            }
            roomier(&input, &rooms);
            malformed_at_last_byte_or_before(&input, &answers[0]);
        }
    }
}

/// A refused byte stands in the input, and the bytes before it are not refused.
fn malformed_at_last_byte_or_before(input: &[u8], answer: &Decoded) {
    if let Decoded::Refused(refusal) = answer {
        assert!(refusal.place < input.len());
        assert_eq!(decode(&input[..refusal.place], 0), Decoded::More);
    }
}

/// Ways to end an element that was begun, then a line, then data, then the body.
const ELEMENT_ENDS: [&str; 8] = ["", "a", "\"", "a\"", ":", "a:", "0", "a=a"];
const LINE_ENDS: [&str; 3] = ["", "\n", "\r\n"];
const BODY_ENDS: [&str; 5] = ["", "\n", "\r\n", "0\r\n\r\n", "\r\n0\r\n\r\n"];
/// Sizes above this are left out here: they would need more data than is tried.
const MOST_DATA: usize = 0x12;

fn can_be_completed(input: &[u8]) -> bool {
    let suffixes = ELEMENT_ENDS.iter().flat_map(|element| LINE_ENDS.map(|line| format!("{element}{line}")));
    suffixes.into_iter().any(|suffix| {
        (0..=MOST_DATA).any(|count| {
            let data = "d".repeat(count);
            BODY_ENDS.iter().any(|end| {
                let completed = [input, suffix.as_bytes(), data.as_bytes(), end.as_bytes()].concat();
                matches!(decode(&completed, AMPLE), Decoded::Whole { taken, .. } if taken == completed.len())
            })
        })
    })
}

/// An input answered with "more" has a continuation that makes it a body.
#[test]
fn more_can_be_completed() {
    const LONGEST: usize = 4;
    for (stem, alphabet, _) in short(Kind::Chunked) {
        for input in every((stem, alphabet, LONGEST)) {
            if decode(&input, MOST_DATA) == Decoded::More {
                assert!(can_be_completed(&input), "{input:?}");
            }
        }
    }
}

#[test]
fn written_bodies_are_read_back() {
    let mut rng = Rng::new(4);
    for _ in 0..ROUNDS {
        let (body, chunk_len, out_len) = frame(&mut rng);
        let Ok(written) = encode(&body, chunk_len, out_len) else { continue };
        let expected = whole(written.len(), body.clone());
        assert_eq!(decode(&written, body.len()), expected);
        same_as_plain(&written, body.len(), &expected);
    }
}

/// A quadratic decoder would need minutes here.
#[test]
fn long_inputs_take_linear_time() {
    const CHUNKS: usize = 200_000;
    let mut input = b"1\r\nx\r\n".repeat(CHUNKS);
    assert_eq!(decode(&input, CHUNKS), Decoded::More);
    input.extend_from_slice(b"0\r\n\r\n");
    assert_eq!(decode(&input, CHUNKS), whole(input.len(), vec![b'x'; CHUNKS]));
    let line = [b"0;".to_vec(), vec![b'a'; 1 << 20]].concat();
    assert_eq!(decode(&line, 0), Decoded::Refused(Refusal { number: LINE_TOO_LONG, place: LINE_LIMIT }));
    let trailer = [b"0\r\n".to_vec(), b"a:b\r\n".repeat(CHUNKS)].concat();
    assert_eq!(
        decode(&trailer, 0),
        Decoded::Refused(Refusal { number: TRAILER_TOO_LONG, place: 3 + TRAILER_LIMIT })
    );
}
