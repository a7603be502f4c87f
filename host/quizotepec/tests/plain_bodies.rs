//! The chunked readers and the writer against the plain ones that the benchmarks time, on bodies of every
//! kind and on long ones: answers, every lent byte and those around.

mod common;

use common::{call, decoded, raw, refusal, Lent};
use independent::generate::{any, at_limits, body_with_names, every, frame, rooms, short, Kind, Rng};
use independent::generate::{cut, cuttings, damage, pieces_of, quotas, trailers_with_each_byte};
use independent::plain::{plain_decode, plain_encode};
use independent::plain_pieces::PlainPieces;
use quizotepec::{chunked_decode, chunked_encode, Decoded, Fed};

const RANDOM: usize = 50_000;
/// How many random bodies are cut in many ways.
const CUT: usize = 1_000;
/// How many long bodies are made, and the most bytes of data that they have.
const LONG: usize = 1_000;
const LONGEST: usize = 10_000;
/// The same of those that are cut into pieces.
const LONG_CUT: usize = 100;
const LONGEST_CUT: usize = 2_000;
const ROOM: usize = 8;

/// A refused body, and one that goes on, leave our output as it was.
fn decoders_agree(input: &[u8], room: usize) {
    let (mut out, mut plain_out) = (Lent::new(room), Lent::new(room));
    let answer = chunked_decode(input, out.bytes());
    let plain = decoded(plain_decode(input, plain_out.bytes()));
    assert_eq!(answer, plain, "{input:?} in room {room}");
    let expected = if let Decoded::Whole { .. } = plain { plain_out } else { Lent::new(room) };
    assert!(out == expected, "the output of {input:?} in room {room}");
}

/// Both take as much of each piece and answer alike, with the same output behind it.
fn pieces_agree(input: &[u8], cutting: &[usize], quota: usize, room: usize) {
    // SAFETY: it takes a number.
    let mut state = unsafe { raw::qz_pieces_start(room) };
    let mut plain = PlainPieces::start(room);
    let (mut out, mut plain_out) = (Lent::new(room), Lent::new(room));
    let about = || format!("{input:?} in room {room}, cut {cutting:?}, by {quota}");
    for mut piece in pieces_of(input, cutting) {
        let mut took = 1;
        while took > 0 {
            let fed = call(&mut state, piece, quota, out.bytes());
            let expected = plain.feed(piece, quota, plain_out.bytes());
            assert_eq!(fed, Fed { took: expected.taken, answer: decoded(expected.answer) }, "{}", about());
            assert!(out == plain_out, "the output of {}", about());
            took = fed.took;
            piece = &piece[took..];
        }
    }
}

/// A refusal leaves both outputs as they were.
fn writers_agree(body: &[u8], chunk_len: usize, room: usize) {
    let (mut out, mut plain_out) = (Lent::new(room), Lent::new(room));
    let answer = chunked_encode(body, chunk_len, out.bytes());
    let plain = plain_encode(body, chunk_len, plain_out.bytes()).map_err(refusal);
    assert_eq!(answer, plain, "{} bytes by {chunk_len} in room {room}", body.len());
    assert!(out == plain_out, "{} bytes by {chunk_len} in room {room}", body.len());
}

fn random_bytes(most: usize, rng: &mut Rng) -> Vec<u8> {
    (0..rng.below(most + 1)).map(|_| rng.byte()).collect()
}

/// A chunk line, at times with leading zeros or an extension.
fn chunk_line(size: usize, is_varied: bool, rng: &mut Rng) -> Vec<u8> {
    let zeros = if is_varied && rng.once_in(4) { "000" } else { "" };
    let digits = if rng.once_in(2) { format!("{size:x}") } else { format!("{size:X}") };
    let extension = if is_varied { rng.pick(&["", "", ";a=b", ";a", ";a=\"\\\"\";b=c"]) } else { "" };
    format!("{zeros}{digits}{extension}\r\n").into_bytes()
}

/// A body of many chunks, as long as each other or not, and the length of its data.
fn long_body(most: usize, rng: &mut Rng) -> (Vec<u8>, usize) {
    let data = random_bytes(most, rng);
    let longest = rng.pick(&[1, 2, 16, 17, 64, 300, 5_000]);
    let (is_varied, is_random) = (rng.once_in(2), rng.once_in(2));
    let (mut rest, mut input) = (&data[..], Vec::new());
    while !rest.is_empty() {
        let size = if is_random { 1 + rng.below(longest) } else { longest };
        let (chunk, behind) = rest.split_at(size.min(rest.len()));
        input.extend([&chunk_line(chunk.len(), is_varied, rng), chunk, b"\r\n"].concat());
        rest = behind;
    }
    input.extend_from_slice(rng.pick(&[&b"0\r\n\r\n"[..], b"0\r\n\r\n", b"00;a\r\nA: b\r\n\r\nGET"]));
    (input, data.len())
}

/// Whole, cut, or with another byte or two somewhere; at times its last bytes alone are others.
fn changed(mut input: Vec<u8>, rng: &mut Rng) -> Vec<u8> {
    match rng.below(5) {
        0 => cut(input, rng),
        1 => damage(input, rng),
        2 => {
            let place = input.len() - 1 - rng.below(input.len().min(40));
            input[place] ^= 1 << rng.below(8);
            input
        }
        _ => input,
    }
}

#[test]
fn random_bodies_as_plain() {
    let mut rng = Rng::new(71);
    for _ in 0..RANDOM {
        let room = rng.below(160);
        decoders_agree(&any(Kind::Chunked, &mut rng), room);
        decoders_agree(&body_with_names(&mut rng), 0);
    }
}

#[test]
fn short_and_long_parts_as_plain() {
    let families = short(Kind::Chunked).iter().flat_map(|family| every(*family));
    for input in families.chain(at_limits(Kind::Chunked)).chain(trailers_with_each_byte()) {
        [0, 2, ROOM].into_iter().for_each(|room| decoders_agree(&input, room));
    }
}

#[test]
fn long_bodies_as_plain() {
    let mut rng = Rng::new(72);
    for _ in 0..LONG {
        let (input, length) = long_body(LONGEST, &mut rng);
        let input = changed(input, &mut rng);
        for room in rooms(length).into_iter().chain([length + 15, length + 32, length + 64]) {
            decoders_agree(&input, room);
        }
    }
}

#[test]
fn random_bodies_in_pieces_as_plain() {
    let mut rng = Rng::new(73);
    for _ in 0..CUT {
        for input in [any(Kind::Chunked, &mut rng), body_with_names(&mut rng)] {
            let (quota, room) = (rng.pick(&quotas(input.len())), rng.below(60));
            for cutting in cuttings(input.len(), &mut rng) {
                pieces_agree(&input, &cutting, quota, room);
            }
        }
    }
}

#[test]
fn short_and_long_parts_in_pieces_as_plain() {
    let mut rng = Rng::new(74);
    for input in short(Kind::Chunked).iter().flat_map(|family| every(*family)).step_by(5) {
        let first = rng.below(input.len() + 1);
        pieces_agree(&input, &[first, input.len() - first], usize::MAX, ROOM);
    }
    for input in at_limits(Kind::Chunked) {
        for cutting in cuttings(input.len(), &mut rng).iter().skip(2).take(2) {
            pieces_agree(&input, cutting, rng.pick(&[7, 1_000, usize::MAX]), ROOM);
        }
    }
}

#[test]
fn long_bodies_in_pieces_as_plain() {
    let mut rng = Rng::new(75);
    for _ in 0..LONG_CUT {
        let (input, length) = long_body(LONGEST_CUT, &mut rng);
        let input = changed(input, &mut rng);
        for cutting in cuttings(input.len(), &mut rng) {
            let room = rng.pick(&[length, length + 1, length + 32, length / 2]);
            pieces_agree(&input, &cutting, rng.pick(&[100, usize::MAX]), room);
        }
    }
}

#[test]
fn random_frames_as_plain() {
    let mut rng = Rng::new(76);
    for _ in 0..RANDOM {
        let (body, chunk_len, room) = frame(&mut rng);
        writers_agree(&body, chunk_len, room);
    }
}

#[test]
fn long_frames_as_plain() {
    let mut rng = Rng::new(77);
    for _ in 0..LONG {
        let body = random_bytes(LONGEST, &mut rng);
        let longest = rng.pick(&[1, 16, 64, 300, LONGEST]);
        let chunk_len = if rng.once_in(2) { longest } else { 1 + rng.below(longest) };
        let mut ample = vec![0; 6 * LONGEST + 100];
        let needed = plain_encode(&body, chunk_len, &mut ample).expect("a frame");
        for room in [needed - 1, needed, needed + 1, needed + 15, needed + 64] {
            writers_agree(&body, chunk_len, room);
        }
    }
}
