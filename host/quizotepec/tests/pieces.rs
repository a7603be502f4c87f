//! The reader in pieces against the independent one and the one-call reader: cuttings, also inside the names of a
//! trailer, quotas, invalid calls between, the limit of refusal 14, and states that no calls lead to.

mod common;

use common::{at, call, decoded, lend, long_names, names, raw, whole, Lent, RANDOM};
use independent::chunked::{encode, LINE_LIMIT, TRAILER_LIMIT};
use independent::generate::{any, any_body, at_limits, damage, every, rooms, short, Kind, Rng};
use independent::generate::{body_with_names, trailers_with, trailers_with_each_byte};
use independent::generate::{cuttings, every_cutting, pieces_of, quotas};
use independent::pieces::{Pieces as Theirs, FRAMED_LIMIT};
use quizotepec::{chunked_decode, Decoded, Fed, Pieces, Refusal, Span};

const HELLO: &[u8] = b"5\r\nhello\r\n0\r\n\r\n";
const WHOLE: Decoded = whole(15, 5);
const OUT_OF_RANGE: Fed = Fed { took: 0, answer: Decoded::Refused(Refusal::OutOfRange { place: 0 }) };
const ROOM: usize = 8;
const AMPLE: usize = 4_096;
const NO_QUOTA: usize = usize::MAX;
const LIMIT: usize = FRAMED_LIMIT as usize;
/// How many random bodies are cut in many ways.
const CUT: usize = 1_000;
/// Bytes of data of a long body.
const LONG: usize = 20_000;

fn fields(state: raw::QzPieces) -> [usize; 9] {
    let raw::QzPieces { position, part, name, size, length, total, taken, room, refused } = state;
    let [position, part, name] = [position, part, name].map(usize::from);
    [position, part, name, size, length, total, taken, room, refused]
}

/// A body that both read, each into an output between canaries.
#[derive(Clone)]
struct Reading {
    state: raw::QzPieces,
    out: Lent,
    theirs: Theirs,
    their_out: Lent,
}

impl Reading {
    fn start(room: usize) -> Self {
        // SAFETY: it takes a number.
        let state = unsafe { raw::qz_pieces_start(room) };
        assert_eq!(fields(state), [0, 0, 0, 0, 0, 0, 0, room, 0]);
        Reading { state, out: Lent::new(room), theirs: Theirs::start(room), their_out: Lent::new(room) }
    }

    /// As if `taken` bytes had been there before the first chunk line.
    fn after(room: usize, taken: usize) -> Self {
        let mut reading = Reading::start(room);
        reading.state.taken = taken;
        reading.theirs = Theirs::after(room, taken as u64);
        reading
    }

    /// Both answer alike, take as much, and leave the same output.
    fn feed(&mut self, piece: &[u8], quota: usize) -> Fed {
        let before = self.state.taken;
        let fed = call(&mut self.state, piece, quota, self.out.bytes());
        let theirs = self.theirs.feed(piece, quota, self.their_out.bytes());
        assert_eq!(fed, Fed { took: theirs.taken, answer: decoded(theirs.answer) }, "{piece:?} by {quota}");
        assert_eq!(self.out, self.their_out, "{piece:?} by {quota}");
        assert_eq!(self.state.taken, before + fed.took);
        let most = quota.min(piece.len());
        assert!(fed.took == most || fed.took < most && fed.answer != Decoded::More, "{fed:?} of {piece:?}");
        fed
    }

    /// Another output length, or a quota of 0, changes nothing.
    fn refuses_arguments(&mut self, piece: &[u8]) {
        let (before, room) = (self.clone(), self.state.room);
        assert_eq!(call(&mut self.state, piece, 0, self.out.bytes()), OUT_OF_RANGE);
        for length in [0, room / 2, room.saturating_sub(1), room + 1, 2 * room + 1] {
            for quota in [0, 1, NO_QUOTA] {
                if length != room {
                    let fed = lend(length, |out| call(&mut self.state, piece, quota, out), |_| Vec::new());
                    assert_eq!(fed, OUT_OF_RANGE, "{length} bytes for a room of {room}");
                }
            }
        }
        assert!(self.is_at(&before), "{piece:?}");
    }

    fn is_at(&self, other: &Reading) -> bool {
        fields(self.state) == fields(other.state) && self.out == other.out
    }

    /// Once whole or refused, later valid calls take nothing and repeat the answer.
    fn stays(&mut self, answer: Decoded) {
        let before = self.clone();
        for piece in [&b""[..], b"0", b"\r\n", b"\0", HELLO] {
            if answer != Decoded::More || piece.is_empty() {
                for quota in [1, NO_QUOTA] {
                    assert_eq!(self.feed(piece, quota), Fed { took: 0, answer });
                }
            }
        }
        assert!(self.is_at(&before), "{answer:?}");
    }
}

/// Hands over the pieces of a cutting, each again until all of it is taken or the body is decided.
fn feed_cut(input: &[u8], cutting: &[usize], mut feed: impl FnMut(&[u8]) -> Fed) -> Decoded {
    let mut answer = Decoded::More;
    for mut piece in pieces_of(input, cutting) {
        loop {
            let fed = feed(piece);
            answer = fed.answer;
            piece = &piece[fed.took..];
            if piece.is_empty() || answer != Decoded::More {
                break;
            }
        }
    }
    answer
}

/// One call for all of the input. Its answer is that of `chunked_decode`, with the same output where it is whole.
fn one_call(input: &[u8], room: usize) -> (Decoded, Reading) {
    let mut reading = Reading::start(room);
    let answer = reading.feed(input, NO_QUOTA).answer;
    let mut out = Lent::new(room);
    assert_eq!(chunked_decode(input, out.bytes()), answer, "{input:?} in room {room}");
    if let Decoded::Whole { .. } = answer {
        assert_eq!(reading.out, out, "{input:?} in room {room}");
    }
    reading.stays(answer);
    (answer, reading)
}

/// Any cutting gives the answer, the state and the output of one call, through the boundary and through the wrapper.
fn same_in_pieces(input: &[u8], room: usize, cuttings: impl IntoIterator<Item = Vec<usize>>, quota: usize) {
    let (answer, expected) = one_call(input, room);
    for cutting in cuttings {
        let mut reading = Reading::start(room);
        let mut lent = Lent::new(room);
        let mut pieces = Pieces::new(lent.bytes());
        let last = feed_cut(input, &cutting, |piece| {
            let fed = reading.feed(piece, quota);
            assert_eq!(pieces.feed_at_most(piece, quota), fed);
            assert_eq!(pieces.taken(), reading.state.taken);
            fed
        });
        let about = || format!("{input:?} in room {room}, cut {cutting:?}, by {quota}");
        assert_eq!(last, answer, "{}", about());
        assert!(reading.is_at(&expected), "{}", about());
        assert_eq!(lent, expected.out, "{}", about());
    }
}

/// The data so far by the independent reader: what it has written over two outputs that differ in every byte.
struct DataSoFar([(Theirs, Vec<u8>); 2]);

impl DataSoFar {
    fn start(room: usize) -> Self {
        DataSoFar([0, 1].map(|lent| (Theirs::start(room), vec![lent; room])))
    }

    fn feed(&mut self, piece: &[u8]) -> &[u8] {
        for (pieces, out) in &mut self.0 {
            let _same = pieces.feed(piece, NO_QUOTA, out);
        }
        let [(_, one), (_, other)] = &self.0;
        let length = one.iter().zip(other).take_while(|(one, other)| one == other).count();
        &one[..length]
    }
}

/// The wrapper's data, and the output that it gives back, behind each byte.
fn data_after_each_byte(input: &[u8], room: usize) {
    let mut lent = Lent::new(room);
    let mut pieces = Pieces::new(lent.bytes());
    let mut so_far = DataSoFar::start(room);
    assert_eq!((pieces.data(), pieces.taken()), (&b""[..], 0));
    for (place, byte) in input.iter().enumerate() {
        let fed = pieces.feed(&[*byte]);
        let data = so_far.feed(&[*byte]);
        assert_eq!(pieces.data(), data, "{place} of {input:?} in room {room}");
        if let Decoded::Whole { length, .. } = fed.answer {
            assert_eq!(length, data.len());
        }
        let refused = pieces.feed_at_most(&[*byte], 0);
        assert_eq!((refused, pieces.data()), (OUT_OF_RANGE, data));
    }
    let data = pieces.data().to_vec();
    assert_eq!(pieces.into_output()[..data.len()], data);
    assert!(lent.holds(&data), "{input:?} in room {room}");
}

/// Good and damaged ones of every part of a body.
const SHORT_BODIES: [&[u8]; 17] = [
    HELLO,
    b"0\r\n\r\n",
    b"",
    b"00;a\r\nb:c\r\n\r\n",
    b"1;a=\"\\\"\"\r\n0\r\n",
    b"2\r\n\r\n\r\n00\r\n\r\n",
    b"5\r\nhelloX",
    b"5\r\nhello\r\r",
    b"1\r\nx\r\n3\r\nab",
    b"A;a;b=\0",
    b"1\r\nx\r\n\r\n",
    b"0\r\nA\r\n",
    b"0\r\nA:b\r\rC:",
    b"3;a=\"\x80\\\x80\"",
    b"0\r\ntRAILER:",
    b"0\r\nTrailers:\r",
    b"0\r\nT:\r\nTrailer:",
];

#[test]
fn every_cutting_of_short_bodies() {
    for input in SHORT_BODIES {
        for (room, quota) in [(ROOM, NO_QUOTA), (ROOM, 3), (5, 1), (4, NO_QUOTA), (1, 2), (0, NO_QUOTA)] {
            same_in_pieces(input, room, every_cutting(input.len()), quota);
            data_after_each_byte(input, room);
        }
    }
}

/// Each byte of a body replaced, left out or doubled.
#[test]
fn every_cutting_of_damaged_bodies() {
    for body in [&b"2\r\nab\r\n"[..], b"0;a=\"\\b\"\r\n", b"0\r\nA:b\r\n\r\n"] {
        for place in 0..body.len() {
            let (front, behind) = (&body[..place], &body[place + 1..]);
            for bytes in [&b""[..], b"\r", b"\n", b"\"", b"\0", b"0", b";", b"\x80", &[body[place]; 2]] {
                let input = [front, bytes, behind].concat();
                same_in_pieces(&input, ROOM, every_cutting(input.len()), NO_QUOTA);
            }
        }
    }
}

/// The cuttings into two pieces, one of which may be empty.
fn two_pieces(length: usize) -> impl Iterator<Item = Vec<usize>> {
    (0..=length).map(move |first| vec![first, length - first])
}

#[test]
fn short_strings_in_two_pieces() {
    for input in short(Kind::Chunked).iter().flat_map(|family| every(*family)) {
        same_in_pieces(&input, 2, two_pieces(input.len()), NO_QUOTA);
    }
}

/// In two pieces, cut at every byte, and in pieces of one byte.
fn same_cut_anywhere(input: &[u8]) {
    same_in_pieces(input, ROOM, two_pieces(input.len()).chain([vec![1; input.len()]]), NO_QUOTA);
}

#[test]
fn names_cut_anywhere() {
    let placed = names(&mut Rng::new(59)).into_iter().flat_map(|name| trailers_with(&name));
    for input in placed.chain(trailers_with_each_byte()) {
        same_cut_anywhere(&input);
    }
}

#[test]
fn names_longer_than_forbidden_ones() {
    let mut rng = Rng::new(60);
    for input in long_names() {
        same_in_pieces(&input, ROOM, few_cuttings(input.len(), &mut rng), NO_QUOTA);
    }
}

#[test]
fn names_by_each_quota() {
    for name in names(&mut Rng::new(61)) {
        let input = [b"0\r\nA:b\r\n", &name[..], b":\r\n\r\n"].concat();
        let cuttings = [vec![input.len()], vec![7, input.len() - 7]];
        (1..=input.len()).for_each(|quota| same_in_pieces(&input, ROOM, cuttings.clone(), quota));
    }
}

#[test]
fn random_trailers() {
    let mut rng = Rng::new(62);
    for _ in 0..CUT {
        let input = body_with_names(&mut rng);
        same_cut_anywhere(&input);
        let cut = cuttings(input.len(), &mut rng);
        same_in_pieces(&input, ROOM, cut, rng.pick(&quotas(input.len())));
        same_cut_anywhere(&damage(input, &mut rng));
    }
}

#[test]
fn random_cuttings() {
    let mut rng = Rng::new(51);
    for _ in 0..CUT {
        let (input, length) = any_body(&mut rng);
        let cut = cuttings(input.len(), &mut rng);
        let (room, quota) = (rng.pick(&rooms(length)), rng.pick(&quotas(input.len())));
        same_in_pieces(&input, room, cut, quota);
        data_after_each_byte(&input, room);
        let damaged = any(Kind::Chunked, &mut rng);
        let cut = cuttings(damaged.len(), &mut rng);
        let (room, quota) = (rng.below(60), rng.pick(&quotas(damaged.len())));
        same_in_pieces(&damaged, room, cut, quota);
        data_after_each_byte(&damaged, room);
    }
}

/// One piece, pieces of one byte and some random ones.
fn few_cuttings(length: usize, rng: &mut Rng) -> impl Iterator<Item = Vec<usize>> {
    cuttings(length, rng).into_iter().take(8)
}

#[test]
fn random_cuttings_at_the_limits() {
    let mut rng = Rng::new(52);
    for input in at_limits(Kind::Chunked) {
        let quota = rng.pick(&quotas(100));
        same_in_pieces(&input, rng.pick(&[0, 2, 3, AMPLE]), few_cuttings(input.len(), &mut rng), quota);
    }
}

#[test]
fn random_cuttings_of_long_bodies() {
    let mut rng = Rng::new(53);
    for chunk_len in [1, 7, 16, 255, 256, 1_460, 4_096, LONG] {
        let data: Vec<u8> = (0..LONG).map(|_| rng.byte()).collect();
        let mut input = encode(&data, chunk_len, usize::MAX).expect("a frame");
        for (room, quota) in [(LONG, NO_QUOTA), (LONG + 1, 1_000), (LONG - 1, 17)] {
            same_in_pieces(&input, room, few_cuttings(input.len(), &mut rng), quota);
        }
        let place = rng.below(input.len());
        input[place] ^= 1 << rng.below(8);
        same_in_pieces(&input, LONG, few_cuttings(input.len(), &mut rng), NO_QUOTA);
    }
}

#[test]
fn quotas_below_at_and_above_the_piece() {
    let mut rng = Rng::new(54);
    for _ in 0..CUT {
        let input = any(Kind::Chunked, &mut rng);
        let (room, cut) = (rng.below(60), cuttings(input.len(), &mut rng));
        let mut reading = Reading::start(room);
        let cutting = &cut[rng.below(cut.len())];
        let last = feed_cut(&input, cutting, |piece| reading.feed(piece, rng.pick(&quotas(piece.len()))));
        let (answer, expected) = one_call(&input, room);
        assert_eq!(last, answer, "{input:?} in room {room}, cut {cutting:?}");
        assert!(reading.is_at(&expected), "{input:?} in room {room}, cut {cutting:?}");
    }
}

/// With quota q and all n bytes waiting, n divided by q, rounded up, calls suffice.
#[test]
fn calls_that_suffice() {
    let mut rng = Rng::new(55);
    for _ in 0..CUT {
        let input = any(Kind::Chunked, &mut rng);
        let room = rng.below(60);
        let (answer, _) = one_call(&input, room);
        for quota in quotas(input.len()) {
            let mut out = vec![0; room];
            let mut pieces = Pieces::new(&mut out);
            let mut last = Decoded::More;
            for _ in 0..input.len().div_ceil(quota) {
                last = pieces.feed_at_most(&input[pieces.taken()..], quota).answer;
            }
            assert_eq!(last, answer, "{input:?} by {quota}");
            assert!(last != Decoded::More || pieces.taken() == input.len(), "{input:?} by {quota}");
        }
    }
}

#[test]
fn invalid_calls_between() {
    let mut rng = Rng::new(56);
    let inputs = SHORT_BODIES.iter().map(|input| input.to_vec());
    for input in inputs.chain((0..CUT).map(|_| any(Kind::Chunked, &mut Rng::new(rng.word())))) {
        for room in [0, 1, 5, ROOM, 40] {
            let (answer, expected) = one_call(&input, room);
            let mut reading = Reading::start(room);
            let cutting = vec![3; input.len() / 3].into_iter().chain(vec![1; input.len() % 3]);
            let last = feed_cut(&input, &cutting.collect::<Vec<_>>(), |piece| {
                reading.refuses_arguments(piece);
                reading.refuses_arguments(b"");
                reading.feed(piece, NO_QUOTA)
            });
            reading.refuses_arguments(HELLO);
            assert!(last == answer && reading.is_at(&expected), "{input:?} in room {room}");
        }
    }
}

#[test]
fn cases() {
    let mut reading = Reading::start(ROOM);
    for (place, byte) in HELLO.iter().enumerate() {
        let answer = if place == 14 { WHOLE } else { Decoded::More };
        assert_eq!(reading.feed(&[*byte], 1), Fed { took: 1, answer });
    }
    assert!(reading.out.holds(b"hello"));
    reading.stays(WHOLE);
    let refused = |number, place| Decoded::Refused(at(number, place));
    for (room, input, took, answer, data) in [
        (ROOM, &HELLO[..7], 7, Decoded::More, &b"hell"[..]),
        (ROOM, b"5\r\nhelloX", 8, refused(1, 8), b"hello"),
        (4, b"5", 0, refused(7, 0), b""),
        (ROOM, b"", 0, Decoded::More, b""),
        (ROOM, &[HELLO, HELLO].concat(), 15, WHOLE, b"hello"),
    ] {
        let mut reading = Reading::start(room);
        assert_eq!(reading.feed(input, NO_QUOTA), Fed { took, answer }, "{input:?}");
        assert!(reading.out.holds(data), "{input:?}");
    }
    assert_eq!(Reading::start(ROOM).feed(&HELLO[..10], 3), Fed { took: 3, answer: Decoded::More });
    assert_eq!(Reading::start(ROOM).feed(b"5\r\nhelloX", 8), Fed { took: 8, answer: Decoded::More });
}

#[test]
fn debug_shows_the_counts() {
    let mut out = [0; ROOM];
    let mut pieces = Pieces::new(&mut out);
    assert_eq!(pieces.feed(&HELLO[..5]).answer, Decoded::More);
    assert_eq!(format!("{pieces:?}"), "Pieces { taken: 5, length: 2, room: 8, .. }");
}

/// With the limit at any byte of the input: the byte behind it is refusal 14 unless the body was decided before.
fn limit_at_each_byte(input: &[u8], room: usize, places: impl Iterator<Item = usize>, rng: &mut Rng) {
    let cuttings = cuttings(input.len(), rng);
    for before in places {
        let mut one = Reading::after(room, LIMIT - before);
        let answer = one.feed(input, NO_QUOTA).answer;
        one.stays(answer);
        one.refuses_arguments(input);
        assert!(one.state.taken <= LIMIT);
        assert!(answer != Decoded::More || input.len() <= before);
        let mut reading = Reading::after(room, LIMIT - before);
        let cutting = &cuttings[rng.below(cuttings.len())];
        let last = feed_cut(input, cutting, |piece| reading.feed(piece, rng.pick(&quotas(piece.len()))));
        assert!(input.is_empty() || last == answer, "{before} bytes of {input:?}, cut {cutting:?}");
        assert!(reading.is_at(&one), "{before} bytes of {input:?}, cut {cutting:?}");
    }
}

#[test]
fn framed_limit() {
    let refused = |number| Decoded::Refused(at(number, LIMIT));
    let with_trailer =
        Decoded::Whole { taken: LIMIT, length: 0, trailer: Span { start: LIMIT - 7, length: 5 } };
    for (before, input, took, answer) in [
        (0, &b"5"[..], 0, refused(14)),
        (0, b"x", 0, refused(1)),
        (0, b"9", 0, refused(7)),
        (0, b"", 0, Decoded::More),
        (5, b"0\r\n\r\n", 5, whole(LIMIT, 0)),
        (4, b"0\r\n\r\n", 4, refused(14)),
        (4, b"0\r\n\r\r", 4, refused(1)),
        (6, HELLO, 6, refused(14)),
        (10, b"0\r\nA:b\r\n\r\n", 10, with_trailer),
        (9, b"0\r\nA:b\r\n\r\n", 9, refused(14)),
        (10, b"0\r\nTrailer:", 10, refused(15)),
        (10, b"0\r\nTrailer ", 10, refused(1)),
        (10, b"0\r\nTrailers", 10, refused(14)),
        (10, b"0\r\nTrailed:", 10, refused(14)),
        (9, b"0\r\nTrailer:", 9, refused(14)),
        (11, b"0\r\nTrailer:\r", 10, Decoded::Refused(at(15, LIMIT - 1))),
    ] {
        let mut reading = Reading::after(ROOM, LIMIT - before);
        assert_eq!(reading.feed(input, NO_QUOTA), Fed { took, answer }, "{input:?}");
        reading.stays(answer);
    }
}

/// A name's colon is the byte 8,192 or 8,193 of the trailer, and may be the byte after the framed limit too.
#[test]
fn all_limits_at_one_colon() {
    for (byte, place, number) in
        [(8_192, 8_194, 15), (8_193, 8_195, 6), (8_192, LIMIT, 15), (8_193, LIMIT, 6)]
    {
        let value = "b".repeat(byte - "A:\r\nTrailer:".len());
        let input = format!("0\r\nA:{value}\r\nTrailer:");
        let took = input.len() - 1;
        let mut reading = Reading::after(ROOM, place - took);
        let answer = Decoded::Refused(at(number, place));
        assert_eq!(reading.feed(input.as_bytes(), NO_QUOTA), Fed { took, answer });
        reading.stays(answer);
    }
}

#[test]
fn framed_limit_at_each_byte() {
    let mut rng = Rng::new(57);
    for _ in 0..CUT {
        let input = any(Kind::Chunked, &mut rng);
        limit_at_each_byte(&input, rng.below(100), 0..=input.len() + 2, &mut rng);
        let input = body_with_names(&mut rng);
        limit_at_each_byte(&input, 0, 0..=input.len() + 2, &mut rng);
    }
    for input in at_limits(Kind::Chunked) {
        limit_at_each_byte(&input, AMPLE, input.len().saturating_sub(4)..=input.len() + 1, &mut rng);
    }
}

/// A number near one that means something, or any.
fn some_number(room: usize, rng: &mut Rng) -> usize {
    let near = rng.pick(&[room, room / 2, LINE_LIMIT, TRAILER_LIMIT, LIMIT, 1 << 63, 0]);
    match rng.below(4) {
        0 => rng.word() as usize,
        1 => rng.below(room + 1),
        _ => near.wrapping_add(rng.below(5)).wrapping_sub(2),
    }
}

/// Any body, or one with names in its trailer.
fn some_input(rng: &mut Rng) -> Vec<u8> {
    if rng.once_in(3) {
        damage(body_with_names(rng), rng)
    } else {
        any(Kind::Chunked, rng)
    }
}

/// Random numbers in some fields of a state that calls have led to, or in all.
fn some_state(room: usize, rng: &mut Rng) -> raw::QzPieces {
    let mut reading = Reading::start(room);
    let _any = reading.feed(&some_input(rng), 1 + rng.below(40));
    let mut numbers = fields(reading.state);
    let often = rng.pick(&[1, 2, 8]);
    for number in &mut numbers {
        if rng.below(8) < often {
            *number = some_number(room, rng);
        }
    }
    let [position, part, name, size, length, total, taken, room, refused] = numbers;
    let [position, part, name] = [position, part, name].map(|number| number as u8);
    raw::QzPieces { position, part, name, size, length, total, taken, room, refused }
}

/// A call on any state gives a listed answer and writes inside the lent bytes alone; an invalid one changes nothing.
/// Says whether it was valid.
fn is_safe(mut state: raw::QzPieces, piece: &[u8], quota: usize, length: usize) -> bool {
    let before = fields(state);
    let about = || format!("{before:?} with {piece:?} by {quota} into {length}");
    let (taken, room) = (state.taken, state.room);
    let mut out = Lent::new(length);
    let fed = call(&mut state, piece, quota, out.bytes());
    if fed == OUT_OF_RANGE {
        assert!(fields(state) == before && out.holds(b""), "{}", about());
        return false;
    }
    assert!(out.is_kept() && quota > 0 && length == room, "{}", about());
    assert!(fed.took <= quota.min(piece.len()), "{}", about());
    assert_eq!((state.taken, state.room), (taken + fed.took, room), "{}", about());
    match fed.answer {
        Decoded::Whole { taken, length, trailer } => {
            assert!(taken == state.taken && length <= room, "{}", about());
            assert!(trailer.start <= taken && trailer.length <= TRAILER_LIMIT, "{trailer:?}, {}", about())
        }
        Decoded::More => assert_eq!(fed.took, quota.min(piece.len()), "{}", about()),
        Decoded::Refused(r) => {
            let listed = [1, 5, 6, 7, 14, 15].contains(&r.number());
            assert!(listed && r.place() == state.taken, "{r:?}, {}", about())
        }
    }
    assert_ne!(call(&mut state, piece, 1, out.bytes()), OUT_OF_RANGE, "{}", about());
    out.is_kept()
}

#[test]
fn states_of_random_numbers() {
    let mut rng = Rng::new(58);
    let mut valid = 0;
    for _ in 0..RANDOM {
        let room = rng.below(60);
        let state = some_state(room, &mut rng);
        let piece = some_input(&mut rng);
        let quota = if rng.once_in(20) { 0 } else { rng.pick(&quotas(piece.len())) };
        let length = if state.room <= AMPLE { state.room } else { room };
        valid += usize::from(is_safe(state, &piece, quota, length));
        let invalid = [is_safe(state, &piece, 0, length), is_safe(state, &piece, quota, length + 1)];
        assert_eq!(invalid, [false, false]);
    }
    assert!((RANDOM / 10..RANDOM * 9 / 10).contains(&valid), "{valid} of {RANDOM} are valid");
}
