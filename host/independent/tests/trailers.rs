//! Request (xii) of document 02: the trailer's start and length, and refusal 15, from every decoder.

use independent::chunked::{decode, Decoded, TRAILER_LIMIT};
use independent::generate::{allowed_names, forbidden_names, Rng};
use independent::number::{BODY_TOO_LARGE, FORBIDDEN_FIELD, MALFORMED, TRAILER_TOO_LONG};
use independent::pieces::Pieces;
use independent::plain::{plain_decode, Answer};
use independent::plain_pieces::PlainPieces;
use independent::{Refusal, Span};

const ROOM: usize = 8;
const NO_QUOTA: usize = usize::MAX;

/// The answer of all decoders.
fn answer(input: &[u8]) -> Answer {
    let answer = match decode(input, ROOM) {
        Decoded::Whole { taken, trailer, data } => Answer::Whole { taken, length: data.len(), trailer },
        Decoded::More => Answer::More,
        Decoded::Refused(refusal) => Answer::Refused(refusal),
    };
    let out = &mut [0; ROOM][..];
    assert_eq!(plain_decode(input, out), answer, "{input:?}");
    assert_eq!(Pieces::start(ROOM).feed(input, NO_QUOTA, out).answer, answer, "{input:?}");
    assert_eq!(PlainPieces::start(ROOM).feed(input, NO_QUOTA, out).answer, answer, "{input:?}");
    answer
}

fn refused(number: u8, place: usize) -> Answer {
    Answer::Refused(Refusal { number, place })
}

fn forbidden(place: usize) -> Answer {
    refused(FORBIDDEN_FIELD, place)
}

/// A whole body with its trailer at this place.
fn whole(taken: usize, length: usize, start: usize, trailer: usize) -> Answer {
    Answer::Whole { taken, length, trailer: Span { start, length: trailer } }
}

/// "Without one, the start is the closing CRLF and the length 0."
#[test]
fn start_and_length() {
    assert_eq!(answer(b"0\r\n\r\n"), whole(5, 0, 3, 0));
    assert_eq!(answer(b"0\r\nA:b\r\n\r\n"), whole(10, 0, 3, 5));
    assert_eq!(answer(b"5\r\nhello\r\n0\r\nETag: \"x\"\r\n\r\n"), whole(26, 5, 13, 11));
    assert_eq!(answer(b"5\r\nhello\r\n0\r\n\r\n"), whole(15, 5, 13, 0));
    assert_eq!(answer(b"000;a=b\r\n\r\n0\r\n"), whole(11, 0, 9, 0));
    assert_eq!(answer(b"0\r\nA:\r\nB:c\r\n\r\nD:e\r\n\r\n"), whole(14, 0, 3, 9));
    // What looks like a trailer inside data is data.
    assert_eq!(answer(b"7\r\n0\r\nA:\r\n\r\n0\r\nB:\r\n\r\n"), whole(21, 7, 15, 4));
}

#[test]
fn longest_trailer() {
    let value = vec![b'x'; TRAILER_LIMIT - b"A:\r\n".len()];
    let input = [b"0\r\nA:", &value[..], b"\r\n\r\n"].concat();
    assert_eq!(answer(&input), whole(3 + TRAILER_LIMIT + 2, 0, 3, TRAILER_LIMIT));
}

/// "These names, letter case ignored, are new refusal 15 at the colon".
#[test]
fn names() {
    assert_eq!(answer(b"0\r\ntrailer:"), forbidden(10));
    assert_eq!(answer(b"0\r\nTrailer"), Answer::More);
    assert_eq!(answer(b"0\r\nTRANSFER-encoding: x"), forbidden(20));
    assert_eq!(answer(b"0\r\nContent-Length: 5\r\n\r\n"), forbidden(17));
    assert_eq!(answer(b"0\r\nContent-Length2: 1\r\n\r\n"), whole(25, 0, 3, 20));
    assert_eq!(answer(b"0\r\nTrailers:\r\n\r\n"), whole(16, 0, 3, 11));
    assert_eq!(answer(b"0\r\nContent-Lengt:\r\n\r\n"), whole(21, 0, 3, 16));
    assert_eq!(answer(b"0\r\nX-Trailer:\r\n\r\n"), whole(17, 0, 3, 12));
    assert_eq!(answer(b"0\r\nTransfer-Encodings:\r\n\r\n"), whole(26, 0, 3, 21));
    assert_eq!(answer(b"0\r\nTransfer-Encodin"), Answer::More);
    assert_eq!(answer(b"0\r\nTransfer-Encoding"), Answer::More);
}

#[test]
fn generated_names() {
    for name in forbidden_names(&mut Rng::new(1)) {
        let input = [b"0\r\nA:b\r\n", &name[..], b":\r\n\r\n"].concat();
        assert_eq!(answer(&input), forbidden(8 + name.len()), "{input:?}");
        assert_eq!(answer(&input[..8 + name.len()]), Answer::More, "{input:?}");
    }
    for name in allowed_names() {
        let input = [b"0\r\nA:b\r\n", &name[..], b":\r\n\r\n"].concat();
        assert_eq!(answer(&input), whole(input.len(), 0, 3, name.len() + 8), "{input:?}");
    }
}

/// The name may stand in any line, and nowhere else is it one.
#[test]
fn lines() {
    assert_eq!(answer(b"0\r\nA:b\r\nTrailer:"), forbidden(15));
    assert_eq!(answer(b"0\r\nA:b\r\nTrailer:\r\nTrailer:\r\n\r\n"), forbidden(15));
    assert_eq!(answer(b"0\r\nTrailers:\r\nTrailer:\r\n\r\n"), forbidden(21));
    assert_eq!(answer(b"0\r\nA:Trailer:\r\n\r\n"), whole(17, 0, 3, 12));
    assert_eq!(answer(b"0\r\nA::\tTrailer:\r\n\r\n"), whole(19, 0, 3, 14));
    assert_eq!(answer(b"0;Trailer=Trailer\r\n\r\n"), whole(21, 0, 19, 0));
    assert_eq!(answer(b"8\r\nTrailer:\r\n0\r\n\r\n"), whole(18, 8, 16, 0));
    // What stands behind the body is none of it.
    assert_eq!(answer(b"0\r\n\r\nTrailer:"), whole(5, 0, 3, 0));
}

#[test]
fn earlier_places_win() {
    assert_eq!(answer(b"0\r\nTrailer :"), refused(MALFORMED, 10));
    assert_eq!(answer(b"0\r\nTrailer\r\n"), refused(MALFORMED, 10));
    assert_eq!(answer(b"0\r\n Trailer:"), refused(MALFORMED, 3));
    assert_eq!(answer(b"0\r\nA\r\nTrailer:"), refused(MALFORMED, 4));
    assert_eq!(answer(b"0\r\nTrailer:\0"), forbidden(10));
    assert_eq!(answer(b"0\r\nTrailer:\r\r"), forbidden(10));
    assert_eq!(answer(b"9\r\nTrailer:\n\r\n0\r\nTrailer:"), refused(BODY_TOO_LARGE, 0));
    assert_eq!(answer(b"1;Trailer:"), refused(MALFORMED, 9));
}

/// A trailer with this name's colon at its byte of this number, the first being 1.
fn with_colon_at(number: usize, name: &str) -> Vec<u8> {
    let filler = vec![b'b'; number - name.len() - b"A:\r\n:".len()];
    [b"0\r\nA:", &filler[..], b"\r\n", name.as_bytes(), b":"].concat()
}

/// At one byte 6 comes before 15; a name that ends behind it never gets there.
#[test]
fn trailer_limit() {
    for name in ["trailer", "Content-Length", "TRANSFER-ENCODING"] {
        assert_eq!(answer(&with_colon_at(TRAILER_LIMIT, name)), forbidden(3 + TRAILER_LIMIT - 1));
        let too_long = refused(TRAILER_TOO_LONG, 3 + TRAILER_LIMIT);
        assert_eq!(answer(&with_colon_at(TRAILER_LIMIT + 1, name)), too_long);
        assert_eq!(answer(&with_colon_at(TRAILER_LIMIT + 2, name)), too_long);
        let mut malformed = with_colon_at(TRAILER_LIMIT + 1, name);
        malformed[3 + TRAILER_LIMIT] = b' ';
        assert_eq!(answer(&malformed), refused(MALFORMED, 3 + TRAILER_LIMIT));
    }
    assert_eq!(answer(&with_colon_at(TRAILER_LIMIT, "Trailers")), Answer::More);
    assert_eq!(
        answer(&with_colon_at(TRAILER_LIMIT + 1, "Trailers")),
        refused(TRAILER_TOO_LONG, 3 + TRAILER_LIMIT)
    );
}

/// A name is judged by all of its bytes, however many.
#[test]
fn long_names() {
    for length in [18, 19, 100, 255, 256, 257, 273, 4_096, TRAILER_LIMIT - 3] {
        for name in ["Transfer-Encoding", "Content-Length", "Trailer"] {
            let (front, back) = (vec![b'x'; length - name.len()], name.as_bytes());
            let input = [b"0\r\n", &front[..], back, b":\r\n\r\n"].concat();
            assert_eq!(answer(&input), whole(length + 8, 0, 3, length + 3));
            let input = [b"0\r\n", back, &front[..], b":\r\n\r\n"].concat();
            assert_eq!(answer(&input), whole(length + 8, 0, 3, length + 3));
        }
    }
}
