//! Request (i) of document 02: its clauses, and every cutting against the one-call reader of document 01, also with
//! the trailers of request (xii).

use independent::chunked::{decode, Decoded, LINE_LIMIT, TRAILER_LIMIT};
use independent::generate::{
    allowed_names, body_with_names, damage, forbidden_names, trailers_with, trailers_with_each_byte,
};
use independent::generate::{
    any, any_body, at_limits, cuttings, every, every_cutting, pieces_of, quotas, rooms, short,
};
use independent::generate::{Kind, Rng};
use independent::number::{ARGUMENT_OUT_OF_RANGE, BODY_TOO_LARGE, FORBIDDEN_FIELD, FRAMED_TOO_LONG};
use independent::number::{LINE_TOO_LONG, MALFORMED, TRAILER_TOO_LONG};
use independent::pieces::{Fed, Pieces, FRAMED_LIMIT};
use independent::plain::Answer;
use independent::{Refusal, Span};

const HELLO: &[u8] = b"5\r\nhello\r\n0\r\n\r\n";
const ROOM: usize = 8;
const AMPLE: usize = 4_096;
const NO_QUOTA: usize = usize::MAX;
const LENT: u8 = 0xA5;
const LIMIT: usize = 1_099_511_627_776;
const ROUNDS: usize = 1_000;
const MANY_ROUNDS: usize = 50_000;

fn refused(number: u8, place: usize) -> Answer {
    Answer::Refused(Refusal { number, place })
}

/// A whole body without a trailer.
fn whole(taken: usize, length: usize) -> Answer {
    Answer::Whole { taken, length, trailer: Span { start: taken - 2, length: 0 } }
}

fn fed(taken: usize, answer: Answer) -> Fed {
    Fed { taken, answer }
}

const OUT_OF_RANGE: Fed =
    Fed { taken: 0, answer: Answer::Refused(Refusal { number: ARGUMENT_OUT_OF_RANGE, place: 0 }) };

fn lent(room: usize) -> Vec<u8> {
    vec![LENT; room]
}

/// The data so far at the front of an output, the rest as lent.
fn output(data: &[u8], room: usize) -> Vec<u8> {
    [data, &lent(room - data.len())].concat()
}

/// A body that is being read, with its output.
#[derive(Clone, Debug, PartialEq)]
struct Reading {
    pieces: Pieces,
    out: Vec<u8>,
}

impl Reading {
    fn start(room: usize) -> Self {
        Reading { pieces: Pieces::start(room), out: lent(room) }
    }

    fn after(room: usize, taken: u64) -> Self {
        Reading { pieces: Pieces::after(room, taken), out: lent(room) }
    }

    fn feed(&mut self, piece: &[u8], quota: usize) -> Fed {
        let fed = self.pieces.feed(piece, quota, &mut self.out);
        let most = quota.min(piece.len());
        assert!(fed.taken == most || fed.taken < most && fed.answer != Answer::More, "{fed:?} of {piece:?}");
        fed
    }

    /// Feeds all of the input in one call, which is expected to answer so and to leave this data in the output.
    fn expect(mut self, input: &[u8], expected: Fed, data: &[u8]) -> Self {
        assert_eq!(self.feed(input, NO_QUOTA), expected, "{input:?}");
        assert_eq!(self.out, output(data, self.out.len()), "{input:?}");
        self.stays(expected.answer);
        self
    }

    /// "Once whole or refused in the body, later valid calls take nothing and repeat the answer."
    fn stays(&self, answer: Answer) {
        for piece in [&b""[..], b"0", b"\r\n", b"\0", HELLO] {
            let mut later = self.clone();
            if answer != Answer::More || piece.is_empty() {
                assert_eq!(later.feed(piece, 1), fed(0, answer));
                assert_eq!(later.feed(piece, NO_QUOTA), fed(0, answer));
                assert_eq!(later, *self);
            }
        }
    }

    /// "another output length or a quota of 0 is refusal 9, which changes nothing".
    fn refuses_arguments(&mut self, piece: &[u8]) {
        let before = self.clone();
        assert_eq!(self.feed(piece, 0), OUT_OF_RANGE);
        assert_eq!(*self, before);
        for length in [0, self.out.len().saturating_sub(1), self.out.len() + 1, 2 * self.out.len() + 1] {
            for quota in [0, 1, NO_QUOTA] {
                if length != self.out.len() {
                    let mut other = lent(length);
                    assert_eq!(self.pieces.feed(piece, quota, &mut other), OUT_OF_RANGE);
                    assert_eq!((&*self, other), (&before, lent(length)));
                }
            }
        }
    }

    /// Hands over the pieces of a cutting, each again until all of it is taken or the body is decided.
    fn feed_cut(&mut self, input: &[u8], cutting: &[usize], quota: usize) -> Answer {
        let mut answer = Answer::More;
        for mut piece in pieces_of(input, cutting) {
            loop {
                let call = self.feed(piece, quota);
                answer = call.answer;
                piece = &piece[call.taken..];
                if piece.is_empty() || answer != Answer::More {
                    break;
                }
            }
        }
        answer
    }
}

#[test]
fn pieces_of_one_byte() {
    let mut reading = Reading::start(ROOM);
    let (last, before) = HELLO.split_last().unwrap();
    for byte in before {
        assert_eq!(reading.feed(&[*byte], 1), fed(1, Answer::More));
    }
    assert_eq!(reading.feed(&[*last], 1), fed(1, whole(15, 5)));
    assert_eq!(reading.out, output(b"hello", ROOM));
    reading.stays(whole(15, 5));
}

#[test]
fn data_so_far() {
    let more = |taken| fed(taken, Answer::More);
    Reading::start(ROOM).expect(b"", more(0), b"");
    Reading::start(ROOM).expect(&HELLO[..3], more(3), b"");
    let hell = Reading::start(ROOM).expect(&HELLO[..7], more(7), b"hell");
    hell.expect(&HELLO[7..], fed(8, whole(15, 5)), b"hello");
    let malformed = fed(8, refused(MALFORMED, 8));
    Reading::start(ROOM).expect(b"5\r\nhelloX", malformed, b"hello");
    let two = b"2\r\nab\r\n3;a=\"b\"\r\ncde\r\n";
    Reading::start(ROOM).expect(&two[..17], more(17), b"abc");
    let second = Reading::start(ROOM).expect(two, more(21), b"abcde");
    second.clone().expect(b"4", fed(0, refused(BODY_TOO_LARGE, 21)), b"abcde");
    second.expect(b"0\r\nA:\0", fed(5, refused(MALFORMED, 26)), b"abcde");
}

#[test]
fn room() {
    Reading::start(4).expect(HELLO, fed(0, refused(BODY_TOO_LARGE, 0)), b"");
    Reading::start(5).expect(HELLO, fed(15, whole(15, 5)), b"hello");
    Reading::start(0).expect(b"0\r\n\r\n", fed(5, whole(5, 0)), b"");
    Reading::start(0).expect(b"1", fed(0, refused(BODY_TOO_LARGE, 0)), b"");
    let long = Reading::start(15).expect(b"0000F", fed(5, Answer::More), b"");
    long.expect(b"0", fed(0, refused(BODY_TOO_LARGE, 5)), b"");
}

#[test]
fn quota_ends_a_call() {
    let mut reading = Reading::start(ROOM);
    assert_eq!(reading.feed(&HELLO[..10], 3), fed(3, Answer::More));
    assert_eq!(reading.feed(&HELLO[3..], 1), fed(1, Answer::More));
    assert_eq!(reading.out, output(b"h", ROOM));
    assert_eq!(reading.feed(b"", 1), fed(0, Answer::More));
    assert_eq!(reading.feed(&HELLO[4..], NO_QUOTA), fed(11, whole(15, 5)));
    // The body may end with the quota.
    let mut reading = Reading::start(ROOM);
    assert_eq!(reading.feed(HELLO, HELLO.len() - 1), fed(14, Answer::More));
    assert_eq!(reading.feed(b"\n\n", 1), fed(1, whole(15, 5)));
}

/// "what lies beyond the quota doesn't count"
#[test]
fn bytes_beyond_the_quota() {
    let damaged = b"5\r\nhelloX";
    let mut reading = Reading::start(ROOM);
    assert_eq!(reading.feed(damaged, 8), fed(8, Answer::More));
    let mut other = Reading::start(ROOM);
    assert_eq!(other.feed(HELLO, 8), fed(8, Answer::More));
    assert_eq!(reading, other);
    assert_eq!(reading.feed(&damaged[8..], 1), fed(0, refused(MALFORMED, 8)));
    assert_eq!(Reading::start(ROOM).feed(damaged, 9), fed(8, refused(MALFORMED, 8)));
}

#[test]
fn bytes_behind_the_body() {
    let input = [HELLO, HELLO].concat();
    Reading::start(ROOM).expect(&input, fed(15, whole(15, 5)), b"hello");
}

#[test]
fn arguments_out_of_range() {
    let mut reading = Reading::start(ROOM);
    for byte in HELLO {
        reading.refuses_arguments(&[*byte]);
        reading.refuses_arguments(b"");
        assert_eq!(reading.feed(&[*byte], 1).taken, 1);
    }
    reading.refuses_arguments(b"0");
    reading.stays(whole(15, 5));
    let mut damaged = Reading::start(ROOM);
    assert_eq!(damaged.feed(b"x", 1), fed(0, refused(MALFORMED, 0)));
    damaged.refuses_arguments(b"0");
    damaged.stays(refused(MALFORMED, 0));
    let mut none = Reading::start(0);
    none.refuses_arguments(b"0");
    none.expect(b"0\r\n\r\n", fed(5, whole(5, 0)), b"");
}

/// No output is as long as the greatest room.
#[test]
fn greatest_room() {
    let mut pieces = Pieces::start(usize::MAX);
    assert_eq!(pieces.feed(HELLO, NO_QUOTA, &mut lent(AMPLE)), OUT_OF_RANGE);
    assert_eq!(pieces, Pieces::start(usize::MAX));
}

/// At one byte the order is 1, 5, 6, 7, 15, 14.
#[test]
fn order_at_one_byte() {
    let zeros = vec![b'0'; LINE_LIMIT];
    let line = Reading::start(4).expect(&zeros, fed(LINE_LIMIT, Answer::More), b"");
    line.clone().expect(b"5", fed(0, refused(LINE_TOO_LONG, LINE_LIMIT)), b"");
    line.clone().expect(b"\0", fed(0, refused(MALFORMED, LINE_LIMIT)), b"");
    line.expect(b"\r\n\r\n", fed(4, whole(LINE_LIMIT + 4, 0)), b"");
    let line = Reading::start(4).expect(&zeros[1..], fed(LINE_LIMIT - 1, Answer::More), b"");
    line.expect(b"5", fed(0, refused(BODY_TOO_LARGE, LINE_LIMIT - 1)), b"");
}

#[test]
fn framed_limit() {
    assert_eq!(FRAMED_LIMIT, LIMIT as u64);
    let too_long = refused(FRAMED_TOO_LONG, LIMIT);
    let at_limit = Reading::after(ROOM, FRAMED_LIMIT).expect(b"", fed(0, Answer::More), b"");
    at_limit.clone().expect(b"5", fed(0, too_long), b"");
    at_limit.clone().expect(b"x", fed(0, refused(MALFORMED, LIMIT)), b"");
    at_limit.expect(b"9", fed(0, refused(BODY_TOO_LARGE, LIMIT)), b"");
    let last = Reading::after(ROOM, FRAMED_LIMIT - 5);
    last.expect(b"0\r\n\r\n", fed(5, whole(LIMIT, 0)), b"");
    Reading::after(ROOM, FRAMED_LIMIT - 4).expect(b"0\r\n\r\n", fed(4, too_long), b"");
    Reading::after(ROOM, FRAMED_LIMIT - 4).expect(b"0\r\n\r\r", fed(4, refused(MALFORMED, LIMIT)), b"");
    Reading::after(ROOM, FRAMED_LIMIT - 4).expect(HELLO, fed(4, too_long), b"h");
    let mut quota = Reading::after(ROOM, FRAMED_LIMIT - 4);
    assert_eq!(quota.feed(HELLO, 4), fed(4, Answer::More));
    assert_eq!(quota.feed(&HELLO[4..], 1), fed(0, too_long));
    quota.refuses_arguments(HELLO);
    quota.stays(too_long);
}

#[test]
fn other_limits_at_the_framed_limit() {
    let line = Reading::after(ROOM, FRAMED_LIMIT - LINE_LIMIT as u64);
    let line = line.expect(&vec![b'0'; LINE_LIMIT], fed(LINE_LIMIT, Answer::More), b"");
    line.clone().expect(b"0", fed(0, refused(LINE_TOO_LONG, LIMIT)), b"");
    line.clone().expect(b"9", fed(0, refused(LINE_TOO_LONG, LIMIT)), b"");
    line.clone().expect(b"\0", fed(0, refused(MALFORMED, LIMIT)), b"");
    line.expect(b"\r", fed(0, refused(FRAMED_TOO_LONG, LIMIT)), b"");
    let bytes = [b"0\r\n", &b"A:\r\n".repeat(TRAILER_LIMIT / 4)[..]].concat();
    let trailer = Reading::after(ROOM, FRAMED_LIMIT - bytes.len() as u64);
    let trailer = trailer.expect(&bytes, fed(bytes.len(), Answer::More), b"");
    trailer.clone().expect(b"A", fed(0, refused(TRAILER_TOO_LONG, LIMIT)), b"");
    trailer.clone().expect(b"\0", fed(0, refused(MALFORMED, LIMIT)), b"");
    trailer.expect(b"\r", fed(0, refused(FRAMED_TOO_LONG, LIMIT)), b"");
}

/// "new refusal 15 at the colon, just before 14 in the order at one byte"
#[test]
fn forbidden_names_at_the_framed_limit() {
    let name = b"0\r\nTrailer";
    let colon = Reading::after(ROOM, FRAMED_LIMIT - 10).expect(name, fed(10, Answer::More), b"");
    colon.clone().expect(b":", fed(0, refused(FORBIDDEN_FIELD, LIMIT)), b"");
    colon.clone().expect(b"s", fed(0, refused(FRAMED_TOO_LONG, LIMIT)), b"");
    colon.expect(b" ", fed(0, refused(MALFORMED, LIMIT)), b"");
    let other = Reading::after(ROOM, FRAMED_LIMIT - 10);
    other.expect(b"0\r\nTrailed:", fed(10, refused(FRAMED_TOO_LONG, LIMIT)), b"");
    let behind = Reading::after(ROOM, FRAMED_LIMIT - 9);
    behind.expect(b"0\r\nTrailer:", fed(9, refused(FRAMED_TOO_LONG, LIMIT)), b"");
    let before = Reading::after(ROOM, FRAMED_LIMIT - 11);
    before.expect(b"0\r\nTrailer:\r", fed(10, refused(FORBIDDEN_FIELD, LIMIT - 1)), b"");
}

/// A colon that is the trailer's byte 8,193 and the byte after the framed limit is 6.
#[test]
fn all_limits_at_one_colon() {
    let line = [b"A:", &vec![b'b'; TRAILER_LIMIT - 11][..], b"\r\n"].concat();
    let bytes = [b"0\r\n", &line[..], b"TRAILER"].concat();
    let colon = Reading::after(ROOM, FRAMED_LIMIT - bytes.len() as u64);
    let colon = colon.expect(&bytes, fed(bytes.len(), Answer::More), b"");
    colon.clone().expect(b":", fed(0, refused(TRAILER_TOO_LONG, LIMIT)), b"");
    colon.expect(b"\r", fed(0, refused(MALFORMED, LIMIT)), b"");
    let start = Reading::start(ROOM).expect(&bytes, fed(bytes.len(), Answer::More), b"");
    start.expect(b":", fed(0, refused(TRAILER_TOO_LONG, bytes.len())), b"");
}

/// With the limit before any byte of the input: what was decided before it stands, the byte behind it is refused.
fn limit_at_each_byte(input: &[u8], room: usize, places: impl Iterator<Item = usize>) {
    let unlimited = Reading::start(room).feed(input, NO_QUOTA);
    for before in places {
        let shift = LIMIT - before;
        let expected = match unlimited.answer {
            Answer::Whole { taken, length, trailer } if taken <= before => {
                let trailer = Span { start: shift + trailer.start, ..trailer };
                Answer::Whole { taken: shift + taken, length, trailer }
            }
            Answer::Refused(Refusal { number, place }) if place <= before => refused(number, shift + place),
            _ if before < input.len() => refused(FRAMED_TOO_LONG, LIMIT),
            _ => Answer::More,
        };
        let mut reading = Reading::after(room, shift as u64);
        let call = fed(unlimited.taken.min(before), expected);
        assert_eq!(reading.feed(input, NO_QUOTA), call, "{before} bytes of {input:?}");
        let mut unlimited = Reading::start(room);
        unlimited.feed(&input[..before.min(input.len())], NO_QUOTA);
        assert_eq!(reading.out, unlimited.out);
    }
}

#[test]
fn framed_limit_at_each_byte() {
    let mut rng = Rng::new(1);
    for _ in 0..ROUNDS {
        let input = any(Kind::Chunked, &mut rng);
        limit_at_each_byte(&input, rng.below(100), 0..=input.len() + 2);
        let input = body_with_names(&mut rng);
        limit_at_each_byte(&input, 0, 0..=input.len() + 2);
    }
    for input in at_limits(Kind::Chunked) {
        limit_at_each_byte(&input, AMPLE, input.len().saturating_sub(8)..=input.len() + 2);
    }
}

/// The answer of the one-call reader.
fn one_call(input: &[u8], room: usize) -> Answer {
    match decode(input, room) {
        Decoded::Whole { taken, trailer, data } => Answer::Whole { taken, length: data.len(), trailer },
        Decoded::More => Answer::More,
        Decoded::Refused(refusal) => Answer::Refused(refusal),
    }
}

/// The places of data among the bytes that are taken, by the one-call reader: nothing but data may hold a byte 0.
fn data_places(input: &[u8], room: usize) -> Vec<usize> {
    let end = match one_call(input, room) {
        Answer::Whole { taken, .. } => taken,
        Answer::Refused(refusal) => refusal.place,
        Answer::More => input.len(),
    };
    let is_data = |place: &usize| one_call(&[&input[..*place], b"\0"].concat(), room) == Answer::More;
    (0..end).filter(is_data).collect()
}

/// "any cutting gives the one-call answer, place and body": that of this reader and that of document 01's.
fn same_in_pieces(input: &[u8], room: usize, cuttings: impl IntoIterator<Item = Vec<usize>>, quota: usize) {
    let mut expected = Reading::start(room);
    let answer = expected.feed(input, NO_QUOTA).answer;
    assert_eq!(answer, one_call(input, room), "{input:?} in room {room}");
    for cutting in cuttings {
        let mut reading = Reading::start(room);
        let last = reading.feed_cut(input, &cutting, quota);
        assert_eq!(
            (last, &reading),
            (answer, &expected),
            "{input:?} in room {room}, cut {cutting:?}, {quota}"
        );
    }
}

#[test]
fn every_cutting_of_short_bodies() {
    let bodies: [&[u8]; 13] = [
        HELLO,
        b"0\r\n\r\n",
        b"",
        b"00;a\r\nb:c\r\n\r\n",
        b"1;a=\"\\\"\"\r\n0\r\n0\r\n",
        b"2\r\n\r\n\r\n000\r\n\r\n0",
        b"5\r\nhelloX",
        b"5\r\nhello\r\r",
        b"1\r\nx\r\n3\r\nab",
        b"A;a;b=\0",
        b"1\r\nx\r\n\r\n",
        b"0\r\nA\r\n",
        b"3;a=\"\x80\\\x80\"",
    ];
    for input in bodies {
        for room in [0, 1, 4, 5, ROOM] {
            for quota in [1, 3, NO_QUOTA] {
                same_in_pieces(input, room, every_cutting(input.len()), quota);
            }
            data_after_each_byte(input, room);
        }
    }
}

/// "the output holds the data so far at its front ..., the rest as lent": after every beginning.
fn data_after_each_byte(input: &[u8], room: usize) {
    let mut reading = Reading::start(room);
    let places = data_places(input, room);
    for (place, byte) in input.iter().enumerate() {
        let answer = reading.feed(&[*byte], NO_QUOTA).answer;
        assert_eq!(answer, one_call(&input[..=place], room), "{input:?}");
        let data: Vec<u8> = places.iter().filter(|data| **data <= place).map(|data| input[*data]).collect();
        assert_eq!(reading.out, output(&data, room), "{input:?}");
        if let Decoded::Whole { data: whole, .. } = decode(&input[..=place], room) {
            assert_eq!(data, whole);
        }
    }
}

#[test]
fn data_of_generated_bodies() {
    let mut rng = Rng::new(2);
    for _ in 0..ROUNDS / 10 {
        let (input, length) = any_body(&mut rng);
        rooms(length).iter().for_each(|room| data_after_each_byte(&input, *room));
        data_after_each_byte(&any(Kind::Chunked, &mut rng), rng.below(60));
    }
}

fn random_pieces(rounds: usize) {
    let mut rng = Rng::new(3);
    for _ in 0..rounds {
        let input = any(Kind::Chunked, &mut rng);
        let room = rng.below(60);
        let quota = rng.pick(&quotas(input.len()));
        same_in_pieces(&input, room, cuttings(input.len(), &mut rng), quota);
    }
}

#[test]
fn random_bodies_in_pieces() {
    random_pieces(ROUNDS);
}

#[test]
#[ignore = "some seconds in release mode"]
fn many_random_bodies_in_pieces() {
    random_pieces(MANY_ROUNDS);
}

#[test]
fn bodies_at_limits_in_pieces() {
    let mut rng = Rng::new(4);
    for input in at_limits(Kind::Chunked) {
        let quota = rng.pick(&quotas(100));
        let cuttings = cuttings(input.len(), &mut rng).into_iter().skip(1).take(4);
        let room = rng.pick(&[0, 2, 3, AMPLE]);
        same_in_pieces(&input, room, cuttings, quota);
    }
}

#[test]
fn short_strings_in_two_pieces() {
    for family in short(Kind::Chunked) {
        for input in every(*family) {
            same_in_pieces(&input, 2, two_pieces(input.len()), NO_QUOTA);
        }
    }
}

fn two_pieces(length: usize) -> impl Iterator<Item = Vec<usize>> {
    (0..=length).map(move |first| vec![first, length - first])
}

/// In two pieces, cut at every byte, and in pieces of one byte.
fn same_cut_anywhere(input: &[u8]) {
    same_in_pieces(input, ROOM, two_pieces(input.len()).chain([vec![1; input.len()]]), NO_QUOTA);
}

#[test]
fn names_in_trailers_cut_anywhere() {
    let mut rng = Rng::new(6);
    for name in [forbidden_names(&mut rng), allowed_names()].concat() {
        trailers_with(&name).iter().for_each(|input| same_cut_anywhere(input));
    }
    trailers_with_each_byte().iter().for_each(|input| same_cut_anywhere(input));
}

#[test]
fn random_trailers_in_pieces() {
    let mut rng = Rng::new(7);
    for _ in 0..ROUNDS {
        let input = body_with_names(&mut rng);
        same_cut_anywhere(&input);
        same_in_pieces(&input, ROOM, cuttings(input.len(), &mut rng), rng.pick(&quotas(input.len())));
        same_cut_anywhere(&damage(input, &mut rng));
    }
}

/// "n divided by q, rounded up, calls must take all n or answer whole or refused"
#[test]
fn calls_that_suffice() {
    let mut rng = Rng::new(5);
    for _ in 0..ROUNDS {
        let input = any(Kind::Chunked, &mut rng);
        let room = rng.below(60);
        for quota in quotas(input.len()) {
            let mut reading = Reading::start(room);
            let (mut taken, mut answer) = (0, Answer::More);
            for _ in 0..input.len().div_ceil(quota) {
                let call = reading.feed(&input[taken..], quota);
                taken += call.taken;
                answer = call.answer;
            }
            assert!(taken == input.len() || answer != Answer::More, "{input:?} by {quota}");
            assert_eq!(answer, one_call(&input, room));
        }
    }
}
