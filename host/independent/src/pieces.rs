//! Chunked bodies decoded as frames arrive: request (i) of document 02, with the trailer of request (xii).
//!
//! Each byte is judged by itself: the grammar gives the position behind it, limits aside; the limits are then
//! checked over what that position has counted, and over the name that a colon ends.

use crate::chunked::{is_forbidden, FORBIDDEN_LONGEST, LINE_LIMIT, TRAILER_LIMIT};
use crate::number::{
    BODY_TOO_LARGE, FORBIDDEN_FIELD, FRAMED_TOO_LONG, LINE_TOO_LONG, MALFORMED, TRAILER_TOO_LONG,
};
use crate::plain::Answer;
use crate::rules::{is_pair_byte, is_text, is_token_byte};
use crate::{Refusal, Span, OUT_OF_RANGE};

/// "A framed body may have 1,099,511,627,776 bytes".
pub const FRAMED_LIMIT: u64 = 1_099_511_627_776;

// A place up to the limit is a usize in the answer.
const _: () = assert!(usize::MAX as u64 >= FRAMED_LIMIT);

const CR: u8 = b'\r';
const LF: u8 = b'\n';
const HEX: u32 = 16;

/// Where a chunk line stands; each `Start` has a byte to come that it can't do without.
#[derive(Clone, Copy, Debug, PartialEq, Eq)]
enum LinePart {
    SizeStart,
    Size,
    NameStart,
    Name,
    ValueStart,
    Value,
    Quoted,
    /// Behind the backslash of a pair.
    Pair,
    QuotedEnd,
}

/// How many bytes of a name are kept: one more than any name has that no trailer may hold.
const KEPT: usize = FORBIDDEN_LONGEST + 1;

/// The first bytes of a trailer line's name: all of a name that no trailer may hold, too many of a longer one to be
/// taken for such a name.
#[derive(Clone, Copy, Debug, Default, PartialEq, Eq)]
struct FieldName {
    bytes: [u8; KEPT],
    count: usize,
}

impl FieldName {
    fn with(mut self, byte: u8) -> FieldName {
        if self.count < KEPT {
            self.bytes[self.count] = byte;
            self.count += 1;
        }
        self
    }

    fn is_forbidden(self) -> bool {
        is_forbidden(&self.bytes[..self.count])
    }
}

#[derive(Clone, Copy, Debug, PartialEq, Eq)]
enum TrailerPart {
    /// Before a trailer line or the closing CRLF.
    LineStart,
    Name(FieldName),
    Text,
    /// Behind the line's CR.
    Break,
}

/// "The state holds where in the body it stands." Counts are those of the bytes before the position.
#[derive(Clone, Copy, Debug, PartialEq, Eq)]
enum Position {
    /// "The chunk line is what stands before its CR."
    Line {
        part: LinePart,
        bytes: usize,
        size: u128,
    },
    LineBreak {
        size: u128,
    },
    /// `left` is above 0.
    Data {
        left: u128,
    },
    DataEnd,
    DataBreak,
    /// "Trailer bytes are all bytes of trailer lines, CR and LF included, without the closing CRLF."
    Trailer {
        part: TrailerPart,
        bytes: usize,
    },
    Closing,
    End,
}

const CHUNK_START: Position = Position::Line { part: LinePart::SizeStart, bytes: 0, size: 0 };
const TRAILER_START: Position = Position::Trailer { part: TrailerPart::LineStart, bytes: 0 };

impl LinePart {
    fn behind(self, byte: u8) -> Option<LinePart> {
        use LinePart::*;
        Some(match (self, byte) {
            (SizeStart | Size, _) if byte.is_ascii_hexdigit() => Size,
            (_, b';') if self.may_end() => NameStart,
            (NameStart | Name, _) if is_token_byte(byte) => Name,
            (Name, b'=') => ValueStart,
            (ValueStart | Value, _) if is_token_byte(byte) => Value,
            (ValueStart, b'"') => Quoted,
            (Quoted, b'"') => QuotedEnd,
            (Quoted, b'\\') => Pair,
            (Quoted, _) if is_text(byte) => Quoted,
            (Pair, _) if is_pair_byte(byte) => Quoted,
            _ => return None,
        })
    }

    /// Whether the size or an extension is complete, so that another extension or CR may follow.
    fn may_end(self) -> bool {
        matches!(self, LinePart::Size | LinePart::Name | LinePart::Value | LinePart::QuotedEnd)
    }
}

impl TrailerPart {
    fn behind(self, byte: u8) -> Option<TrailerPart> {
        use TrailerPart::*;
        Some(match (self, byte) {
            (LineStart, _) if is_token_byte(byte) => Name(FieldName::default().with(byte)),
            (Name(name), _) if is_token_byte(byte) => Name(name.with(byte)),
            (Name(_), b':') => Text,
            (Text, CR) => Break,
            (Text, _) if is_text(byte) => Text,
            (Break, LF) => LineStart,
            _ => return None,
        })
    }
}

/// The value with one more digit. A value that was kept is at most a room, so this can't overflow.
fn grown(size: u128, digit: u8) -> u128 {
    let digit = char::from(digit).to_digit(HEX).unwrap_or(0);
    size * u128::from(HEX) + u128::from(digit)
}

impl Position {
    /// The position behind a byte, limits aside; none if the byte leaves no continuation.
    fn behind(self, byte: u8) -> Option<Position> {
        use Position::*;
        Some(match (self, byte) {
            (Line { part, size, .. }, CR) if part.may_end() => LineBreak { size },
            (Line { part, bytes, size }, _) => {
                let part = part.behind(byte)?;
                let size = if part == LinePart::Size { grown(size, byte) } else { size };
                Line { part, bytes: bytes + 1, size }
            }
            // "A size of value zero begins the last chunk, which has no data".
            (LineBreak { size: 0 }, LF) => TRAILER_START,
            (LineBreak { size }, LF) => Data { left: size },
            (Data { left: 1 }, _) => DataEnd,
            (Data { left }, _) => Data { left: left - 1 },
            (DataEnd, CR) => DataBreak,
            (DataBreak, LF) => CHUNK_START,
            (Trailer { part: TrailerPart::LineStart, .. }, CR) => Closing,
            (Trailer { part, bytes }, _) => Trailer { part: part.behind(byte)?, bytes: bytes + 1 },
            (Closing, LF) => End,
            _ => return None,
        })
    }

    /// Whether a colon here would end a name that no trailer may hold.
    fn is_behind_forbidden_name(self) -> bool {
        matches!(self, Position::Trailer { part: TrailerPart::Name(name), .. } if name.is_forbidden())
    }
}

/// What one call took, and its answer. The counts and places in the answer are of the body, not of the call.
#[derive(Clone, Copy, Debug, PartialEq, Eq, Hash)]
pub struct Fed {
    pub taken: usize,
    pub answer: Answer,
}

/// A chunked body that arrives in pieces.
#[derive(Clone, Debug, PartialEq, Eq)]
pub struct Pieces {
    /// "Room is fixed at the start".
    room: usize,
    position: Position,
    /// "Places count from the body's first byte": the place of the next one.
    taken: u64,
    /// How many bytes of data there are so far.
    length: usize,
    /// Where the trailer stands, as far as it was read.
    trailer: Span,
    /// The last answer about the body.
    answer: Answer,
}

impl Pieces {
    pub fn start(room: usize) -> Pieces {
        Pieces::after(room, 0)
    }

    /// For tests near the limit, which real bytes are too many for: before the first chunk line, as if `taken` bytes
    /// had been there. No body stands so unless `taken` is 0.
    pub fn after(room: usize, taken: u64) -> Pieces {
        Pieces {
            room,
            position: CHUNK_START,
            taken,
            length: 0,
            trailer: Span::default(),
            answer: Answer::More,
        }
    }

    /// Takes the next bytes. `out` is the output as the last call left it.
    pub fn feed(&mut self, piece: &[u8], quota: usize, out: &mut [u8]) -> Fed {
        // "another output length or a quota of 0 is refusal 9, which changes nothing"
        if out.len() != self.room || quota == 0 {
            return Fed { taken: 0, answer: Answer::Refused(OUT_OF_RANGE) };
        }
        let mut taken = 0;
        // "what lies beyond the quota doesn't count"
        for byte in piece.iter().take(quota) {
            if self.answer != Answer::More || !self.take(*byte, out) {
                break;
            }
            taken += 1;
        }
        Fed { taken, answer: self.answer }
    }

    /// Takes a byte, or keeps its refusal: "at a refused byte, which is not taken".
    fn take(&mut self, byte: u8, out: &mut [u8]) -> bool {
        let behind = match self.judge(byte) {
            Ok(behind) => behind,
            Err(number) => {
                self.answer = Answer::Refused(Refusal::new(number, self.taken as usize));
                return false;
            }
        };
        // "the output holds the data so far at its front"
        if let Position::Data { .. } = self.position {
            out[self.length] = byte;
            self.length += 1;
        }
        self.position = behind;
        self.taken += 1;
        let taken = self.taken as usize;
        match behind {
            Position::Trailer { bytes, .. } => self.trailer = Span { start: taken - bytes, length: bytes },
            Position::End => {
                self.answer = Answer::Whole { taken, length: self.length, trailer: self.trailer };
            }
            _ => {}
        }
        true
    }

    /// The position behind the byte, or the number of its refusal: "at one byte: 1, 5, 6, 7", then 15, then 14.
    fn judge(&self, byte: u8) -> Result<Position, u8> {
        let behind = self.position.behind(byte).ok_or(MALFORMED)?;
        match behind {
            Position::Line { bytes, .. } if bytes > LINE_LIMIT => Err(LINE_TOO_LONG),
            Position::Trailer { bytes, .. } if bytes > TRAILER_LIMIT => Err(TRAILER_TOO_LONG),
            // "finished chunks plus the value read so far pass it": in a line all data is of finished chunks.
            Position::Line { size, .. } if self.length as u128 + size > self.room as u128 => {
                Err(BODY_TOO_LARGE)
            }
            // "new refusal 15 at the colon, just before 14 in the order at one byte"
            _ if byte == b':' && self.position.is_behind_forbidden_name() => Err(FORBIDDEN_FIELD),
            _ if self.taken >= FRAMED_LIMIT => Err(FRAMED_TOO_LONG),
            _ => Ok(behind),
        }
    }
}

/// Rooms that no output can be lent for: their sizes are judged here without one.
#[cfg(test)]
mod tests {
    use super::*;

    /// Reads a chunk line after `length` bytes of data: the position behind it, or the refusal.
    fn line(room: usize, length: usize, text: &str) -> Result<Position, Refusal> {
        let mut pieces = Pieces { length, ..Pieces::start(room) };
        for (place, byte) in text.bytes().enumerate() {
            pieces.position = pieces.judge(byte).map_err(|number| Refusal::new(number, place))?;
        }
        Ok(pieces.position)
    }

    #[test]
    fn sizes_of_the_greatest_rooms() {
        let greatest = format!("{:X}", usize::MAX);
        let digits = greatest.len();
        let left = usize::MAX as u128;
        assert_eq!(line(usize::MAX, 0, &format!("{greatest}\r\n")), Ok(Position::Data { left }));
        assert_eq!(line(usize::MAX, 0, &format!("00{greatest};a\r")), Ok(Position::LineBreak { size: left }));
        let too_large = |place| Err(Refusal::new(BODY_TOO_LARGE, place));
        assert_eq!(line(usize::MAX, 0, &format!("{greatest}0")), too_large(digits));
        assert_eq!(line(usize::MAX, 0, &format!("1{}", "0".repeat(digits))), too_large(digits));
        assert_eq!(line(usize::MAX, 1, &greatest), too_large(digits - 1));
        assert_eq!(line(usize::MAX, usize::MAX, "0001"), too_large(3));
        assert_eq!(line(usize::MAX, usize::MAX, "0\r\n"), Ok(TRAILER_START));
        assert_eq!(line(usize::MAX - 1, 0, &greatest), too_large(digits - 1));
    }
}
