//! Lent outputs between canaries, the independent answers in the wrapper's types, and the functions as C sees them.
#![allow(dead_code)]

use independent::chunked::FORBIDDEN_FIELDS;
use independent::generate::{allowed_names, forbidden_names, Rng};
use independent::plain::Answer;
use independent::{date, number};
use quizotepec::{Date, Decoded, Fed, Refusal, Refused, Span, Which};
use std::ops::Range;

#[path = "../../src/raw.rs"]
pub mod raw;

/// How many inputs each random test makes.
pub const RANDOM: usize = 200_000;

/// Bytes before and behind a lent output.
const CANARIES: usize = 32;

fn canary(at: usize) -> u8 {
    (at.wrapping_mul(37) ^ (at >> 5)) as u8
}

/// Bytes that are lent, between canaries.
#[derive(Clone, Debug, PartialEq)]
pub struct Lent(Vec<u8>);

impl Lent {
    pub fn new(room: usize) -> Lent {
        Lent((0..room + 2 * CANARIES).map(canary).collect())
    }

    pub fn of(bytes: &[u8]) -> Lent {
        let mut lent = Lent::new(bytes.len());
        lent.bytes().copy_from_slice(bytes);
        lent
    }

    pub fn bytes(&mut self) -> &mut [u8] {
        let end = self.0.len() - CANARIES;
        &mut self.0[CANARIES..end]
    }

    /// `front` stands at the front of the lent bytes, and every other byte is as before.
    pub fn holds(&self, front: &[u8]) -> bool {
        let end = CANARIES + front.len();
        self.0[CANARIES..end] == *front && self.as_before(0..CANARIES) && self.as_before(end..self.0.len())
    }

    /// Every byte around the lent ones is as before.
    pub fn is_kept(&self) -> bool {
        let end = self.0.len();
        self.as_before(0..CANARIES) && self.as_before(end - CANARIES..end)
    }

    fn as_before(&self, places: Range<usize>) -> bool {
        self.0[places.clone()].iter().copied().eq(places.map(canary))
    }
}

/// Lends `room` bytes to `call`; afterwards `front` stands at their front and every other byte is as before.
pub fn lend<A>(room: usize, call: impl FnOnce(&mut [u8]) -> A, front: impl FnOnce(&A) -> Vec<u8>) -> A {
    let mut lent = Lent::new(room);
    let answer = call(lent.bytes());
    let front = front(&answer);
    assert!(front.len() <= room, "{} bytes for a room of {room}", front.len());
    assert!(lent.holds(&front), "the lent bytes or those around them: {lent:?}");
    answer
}

/// A writer gives the length of the expected bytes and writes just them, or gives the expected refusal.
pub fn writes(
    expected: Result<Vec<u8>, independent::Refusal>,
    room: usize,
    write: impl FnOnce(&mut [u8]) -> Result<usize, Refusal>,
    about: impl std::fmt::Debug,
) {
    let bytes = expected.clone().unwrap_or_default();
    let answer = lend(room, write, |_| bytes);
    assert_eq!(answer, expected.map(|bytes| bytes.len()).map_err(refusal), "{about:?} in room {room}");
}

pub fn refusal(r: independent::Refusal) -> Refusal {
    let place = r.place;
    match r.number {
        number::MALFORMED => Refusal::Malformed { place },
        number::NUMBER_ABOVE_LIMIT => Refusal::NumberAboveLimit { place },
        number::NO_SUCH_DATE => Refusal::NoSuchDate { place },
        number::WRONG_DAY_NAME => Refusal::WrongDayName { place },
        number::LINE_TOO_LONG => Refusal::LineTooLong { place },
        number::TRAILER_TOO_LONG => Refusal::TrailerTooLong { place },
        number::BODY_TOO_LARGE => Refusal::BodyTooLarge { place },
        number::OUTPUT_TOO_SHORT => Refusal::OutputTooShort { place },
        number::ARGUMENT_OUT_OF_RANGE => Refusal::OutOfRange { place },
        number::TOO_MANY_PARAMETERS => Refusal::TooManyParameters { place },
        number::REPEATED_ATTRIBUTE => Refusal::RepeatedAttribute { place },
        number::COMMENT_TOO_DEEP => Refusal::CommentTooDeep { place },
        number::VALUE_TOO_LONG => Refusal::ValueTooLong { place },
        number::FRAMED_TOO_LONG => Refusal::FramedTooLong { place },
        number::FORBIDDEN_FIELD => Refusal::ForbiddenField { place },
        unknown => panic!("documents 01 and 02 have no refusal {unknown}"),
    }
}

/// The refusal with a number of documents 01 and 02.
pub fn at(number: u8, place: usize) -> Refusal {
    refusal(independent::Refusal::new(number, place))
}

/// Each byte at each place of a text: inserted, put in the place of another, and behind the beginning up to there.
pub fn changes(text: &str) -> impl Iterator<Item = Vec<u8>> + '_ {
    let places = (0..=text.len()).flat_map(|place| (0..=255).map(move |byte| (place, byte)));
    places.flat_map(|(place, byte)| {
        let (front, rest) = text.as_bytes().split_at(place);
        let tails = [rest, rest.get(1..).unwrap_or_default(), b""];
        tails.map(|tail| [front, &[byte], tail].concat())
    })
}

/// A field without a meaning is 0: the place of an answer, the values of a refusal.
pub fn unused(input: &[u8], number: u8, place: usize, values: &[u64]) {
    let zero = if number == 0 { place == 0 } else { values.iter().all(|value| *value == 0) };
    assert!(zero, "{input:?}: {number} at {place}, {values:?}");
}

pub fn date_of(d: date::Date) -> Date {
    Date {
        year: d.year.into(),
        month: d.month.into(),
        day: d.day.into(),
        hour: d.hour.into(),
        minute: d.minute.into(),
        second: d.second.into(),
        seconds: d.seconds,
    }
}

/// The names that no trailer may hold, in many letter cases, and names like them.
pub fn names(rng: &mut Rng) -> Vec<Vec<u8>> {
    [forbidden_names(rng), allowed_names()].concat()
}

/// Bodies with a name that begins or ends as a forbidden one, and is longer: by about 256 bytes, which a byte can't
/// count, and by others.
pub fn long_names() -> Vec<Vec<u8>> {
    let lengths = [1, 2, 100].into_iter().chain(236..=276).chain([511, 512, 513, 4_096, 8_160]);
    let body = |name: Vec<u8>| [b"0\r\n", &name[..], b":\r\n\r\n"].concat();
    let longer = lengths.map(|length| vec![b'x'; length]).flat_map(|more| {
        let both = |name: &str| [[&more, name.as_bytes()].concat(), [name.as_bytes(), &more].concat()];
        FORBIDDEN_FIELDS.map(both).concat()
    });
    longer.map(body).collect()
}

pub fn span(s: independent::Span) -> Span {
    Span { start: s.start, length: s.length }
}

pub fn decoded(answer: Answer) -> Decoded {
    match answer {
        Answer::Whole { taken, length, trailer } => Decoded::Whole { taken, length, trailer: span(trailer) },
        Answer::More => Decoded::More,
        Answer::Refused(r) => Decoded::Refused(refusal(r)),
    }
}

/// Fields without a meaning are zero.
fn answer_of(b: raw::QzBody) -> Decoded {
    let trailer = Span { start: b.trailer_start, length: b.trailer_length };
    match (b.state, b.number, b.place, [b.taken, b.length, trailer.start, trailer.length]) {
        (raw::WHOLE, 0, 0, _) => Decoded::Whole { taken: b.taken, length: b.length, trailer },
        (raw::MORE, 0, 0, [0, 0, 0, 0]) => Decoded::More,
        (raw::REFUSED, number, place, [0, 0, 0, 0]) => Decoded::Refused(at(number, place)),
        fields => panic!("{fields:?}"),
    }
}

/// One call as C makes it. The piece lies between canaries, and beyond the quota it holds other bytes.
pub fn call(state: &mut raw::QzPieces, piece: &[u8], quota: usize, out: &mut [u8]) -> Fed {
    let mut lent = Lent::of(piece);
    lent.bytes().iter_mut().skip(quota).for_each(|byte| *byte = !*byte);
    let before = lent.clone();
    let from = lent.bytes().as_ptr();
    // SAFETY: the pointers and the lengths are those of two slices that do not overlap.
    let fed = unsafe { raw::qz_pieces_feed(*state, from, piece.len(), quota, out.as_mut_ptr(), out.len()) };
    assert_eq!(lent, before, "the piece or the bytes around it");
    *state = fed.pieces;
    Fed { took: fed.took, answer: answer_of(fed.body) }
}

/// A whole body without a trailer: "the start is the closing CRLF and the length 0".
pub const fn whole(taken: usize, length: usize) -> Decoded {
    Decoded::Whole { taken, length, trailer: Span { start: taken - 2, length: 0 } }
}

pub fn refused(r: independent::Refused) -> Refused {
    let which = match r.which {
        independent::Which::First => Which::First,
        independent::Which::Second => Which::Second,
    };
    Refused { which, refusal: refusal(r.refusal) }
}
