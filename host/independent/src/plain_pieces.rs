//! A chunked decoder that keeps its position between pieces, for speed: the baseline of the benchmarks.
//!
//! Its answers, and what it leaves in the output, are those of `pieces::Pieces`.

use crate::chunked::{is_forbidden, FORBIDDEN_LONGEST, LINE_LIMIT, TRAILER_LIMIT};
use crate::number::{
    BODY_TOO_LARGE, FORBIDDEN_FIELD, FRAMED_TOO_LONG, LINE_TOO_LONG, MALFORMED, TRAILER_TOO_LONG,
};
use crate::pieces::{Fed, FRAMED_LIMIT};
use crate::plain::Answer;
use crate::plain_classes::{is_in, run, HEX_VALUES, NO_DIGIT, PAIR, QUOTED, TEXT, TOKEN};
use crate::{Refusal, Span, OUT_OF_RANGE};

const CRLF: &[u8] = b"\r\n";

#[derive(Clone, Copy, Debug, PartialEq, Eq)]
enum Position {
    /// Before the first digit of a size.
    SizeStart,
    Size,
    /// Before the first byte of an extension's name.
    NameStart,
    Name,
    ValueStart,
    Value,
    Quoted,
    /// Behind the backslash of a pair.
    Pair,
    QuotedEnd,
    LineFeed,
    Data,
    DataEnd,
    DataBreak,
    TrailerStart,
    FieldName,
    FieldText,
    TrailerBreak,
    Closing,
    Done,
    /// With the number of the refusal.
    Refused(u8),
}

#[derive(Clone, Debug)]
pub struct PlainPieces {
    /// "Room is fixed at the start".
    room: usize,
    position: Position,
    /// The chunk size by the digits so far, then how many bytes of the chunk are yet to come.
    size: usize,
    /// How many bytes of the chunk line, or of the trailer, there were.
    counted: usize,
    /// How many bytes of data were written.
    length: usize,
    taken: usize,
    /// The front of a trailer line's name, and how many bytes the name has so far.
    name: [u8; FORBIDDEN_LONGEST],
    name_length: usize,
}

#[inline]
fn digit_value(byte: u8) -> Option<usize> {
    match HEX_VALUES[usize::from(byte)] {
        NO_DIGIT => None,
        value => Some(value.into()),
    }
}

#[inline]
fn expect(byte: u8, wanted: u8, next: Position) -> Result<Position, u8> {
    if byte == wanted {
        Ok(next)
    } else {
        Err(MALFORMED)
    }
}

impl PlainPieces {
    pub fn start(room: usize) -> Self {
        PlainPieces::after(room, 0)
    }

    /// For tests near the limit on the framed body, as `Pieces::after`.
    pub fn after(room: usize, taken: u64) -> Self {
        PlainPieces {
            room,
            position: Position::SizeStart,
            size: 0,
            counted: 0,
            length: 0,
            taken: taken as usize,
            name: [0; FORBIDDEN_LONGEST],
            name_length: 0,
        }
    }

    /// Takes the next bytes, at most the quota. The output is as the last call left it.
    #[inline(never)]
    pub fn feed(&mut self, piece: &[u8], quota: usize, out: &mut [u8]) -> Fed {
        if out.len() != self.room || quota == 0 {
            return Fed { taken: 0, answer: Answer::Refused(OUT_OF_RANGE) };
        }
        let piece = &piece[..piece.len().min(quota)];
        let left = (FRAMED_LIMIT as usize).saturating_sub(self.taken);
        let taken = if piece.len() <= left { self.advance(piece, out) } else { self.reach(left, piece, out) };
        self.taken += taken;
        Fed { taken, answer: self.answer() }
    }

    /// Takes no more than is left of the longest framed body, which is less than the piece.
    #[cold]
    fn reach(&mut self, left: usize, piece: &[u8], out: &mut [u8]) -> usize {
        let taken = self.advance(&piece[..left], out);
        if taken == left {
            self.refuse_above_limit(piece[left]);
        }
        taken
    }

    /// Takes bytes until the body ends or one is refused, and says how many.
    #[inline]
    fn advance(&mut self, piece: &[u8], out: &mut [u8]) -> usize {
        let mut at = 0;
        while at < piece.len() {
            match self.position {
                Position::Done | Position::Refused(_) => break,
                Position::Data => at += self.copy(&piece[at..], out),
                Position::SizeStart | Position::Size => at += self.digits(&piece[at..]),
                Position::Name | Position::Value => at += self.text(&piece[at..], TOKEN, LINE_LIMIT),
                Position::Quoted => at += self.text(&piece[at..], QUOTED, LINE_LIMIT),
                Position::FieldName => at += self.text(&piece[at..], TOKEN, TRAILER_LIMIT),
                Position::FieldText => at += self.text(&piece[at..], TEXT, TRAILER_LIMIT),
                position => match self.step(position, piece[at]) {
                    Ok(next) => {
                        self.position = next;
                        at += 1;
                    }
                    Err(number) => self.position = Position::Refused(number),
                },
            }
        }
        at
    }

    /// Judges the byte behind the longest framed body: any other refusal of it comes before 14.
    #[cold]
    fn refuse_above_limit(&mut self, byte: u8) {
        if matches!(self.position, Position::Done | Position::Refused(_)) {
            return;
        }
        let mut behind = self.clone();
        // Data may be any byte, and is not written.
        if self.position != Position::Data {
            behind.advance(&[byte], &mut []);
        }
        self.position = match behind.position {
            refused @ Position::Refused(_) => refused,
            _ => Position::Refused(FRAMED_TOO_LONG),
        };
    }

    fn answer(&self) -> Answer {
        match self.position {
            Position::Done => {
                let start = self.taken - CRLF.len() - self.counted;
                let trailer = Span { start, length: self.counted };
                Answer::Whole { taken: self.taken, length: self.length, trailer }
            }
            Position::Refused(number) => Answer::Refused(Refusal::new(number, self.taken)),
            _ => Answer::More,
        }
    }

    /// Copies data, takes the CRLF behind it if it is there whole, and says how many bytes it took.
    fn copy(&mut self, piece: &[u8], out: &mut [u8]) -> usize {
        let (data, behind) = piece.split_at(self.size.min(piece.len()));
        out[self.length..self.length + data.len()].copy_from_slice(data);
        self.length += data.len();
        self.size -= data.len();
        if self.size > 0 {
            return data.len();
        }
        if behind.starts_with(CRLF) {
            self.position = Position::SizeStart;
            return data.len() + CRLF.len();
        }
        self.position = Position::DataEnd;
        data.len()
    }

    /// Reads the digits of a size and the byte behind them, and says how many bytes it took.
    #[inline]
    fn digits(&mut self, piece: &[u8]) -> usize {
        let left = self.room - self.length;
        let (mut size, mut at) = (self.size, 0);
        while let Some(digit) = piece.get(at).and_then(|byte| digit_value(*byte)) {
            if self.counted + at == LINE_LIMIT {
                self.position = Position::Refused(LINE_TOO_LONG);
                return at;
            }
            // The first test keeps the shift from losing bits.
            if size > left >> 4 || size << 4 | digit > left {
                self.position = Position::Refused(BODY_TOO_LARGE);
                return at;
            }
            size = size << 4 | digit;
            at += 1;
        }
        if at > 0 {
            self.position = Position::Size;
        }
        self.size = size;
        self.counted += at;
        piece.get(at).map_or(at, |byte| at + self.end_size(*byte))
    }

    /// The byte behind the digits; 1 if it was taken.
    #[inline]
    fn end_size(&mut self, byte: u8) -> usize {
        let next = match byte {
            b'\r' if self.position == Position::Size => Ok(Position::LineFeed),
            b';' if self.position == Position::Size => self.line(Position::NameStart),
            _ => Err(MALFORMED),
        };
        self.position = next.unwrap_or_else(Position::Refused);
        usize::from(next.is_ok())
    }

    /// Takes the bytes of the class, which leave the position as it is, and the one behind them, and says how
    /// many.
    #[inline(never)]
    fn text(&mut self, piece: &[u8], class: u8, limit: usize) -> usize {
        let count = run(&piece[..piece.len().min(limit - self.counted)], class);
        if self.position == Position::FieldName {
            self.keep(&piece[..count]);
        }
        self.counted += count;
        let Some(byte) = piece.get(count) else {
            return count;
        };
        let next = self.line_or_trailer(self.position, *byte);
        self.position = next.unwrap_or_else(Position::Refused);
        count + usize::from(next.is_ok())
    }

    /// The position behind a byte that is neither data nor of a size, or the number of its refusal.
    #[inline]
    fn step(&mut self, position: Position, byte: u8) -> Result<Position, u8> {
        match position {
            Position::LineFeed => {
                self.counted = 0;
                expect(byte, b'\n', if self.size == 0 { Position::TrailerStart } else { Position::Data })
            }
            Position::DataEnd => expect(byte, b'\r', Position::DataBreak),
            Position::DataBreak => expect(byte, b'\n', Position::SizeStart),
            _ => self.line_or_trailer(position, byte),
        }
    }

    /// The position behind a byte of an extension, the trailer or the closing CRLF, or the number of its
    /// refusal.
    fn line_or_trailer(&mut self, position: Position, byte: u8) -> Result<Position, u8> {
        use Position::*;
        match (position, byte) {
            (Name | Value | QuotedEnd, b'\r') => Ok(LineFeed),
            (Name | Value | QuotedEnd, b';') => self.line(NameStart),
            (Name, b'=') => self.line(ValueStart),
            (NameStart | Name, _) if is_in(byte, TOKEN) => self.line(Name),
            (ValueStart | Value, _) if is_in(byte, TOKEN) => self.line(Value),
            (ValueStart, b'"') => self.line(Quoted),
            (Quoted, b'"') => self.line(QuotedEnd),
            (Quoted, b'\\') => self.line(Pair),
            (Quoted, _) if is_in(byte, QUOTED) => self.line(Quoted),
            (Pair, _) if is_in(byte, PAIR) => self.line(Quoted),
            (TrailerStart, b'\r') => Ok(Closing),
            (TrailerStart | FieldName, _) if is_in(byte, TOKEN) => {
                self.keep(&[byte]);
                self.trailer(FieldName)
            }
            (FieldName, b':') => self.colon(),
            (FieldText, b'\r') => self.trailer(TrailerBreak),
            (FieldText, _) if is_in(byte, TEXT) => self.trailer(FieldText),
            (TrailerBreak, b'\n') => self.trailer(TrailerStart),
            (Closing, b'\n') => Ok(Done),
            _ => Err(MALFORMED),
        }
    }

    #[inline]
    fn line(&mut self, next: Position) -> Result<Position, u8> {
        self.count(LINE_LIMIT, LINE_TOO_LONG, next)
    }

    fn trailer(&mut self, next: Position) -> Result<Position, u8> {
        self.count(TRAILER_LIMIT, TRAILER_TOO_LONG, next)
    }

    /// Keeps the next bytes of a name, of which a longer one than is forbidden needs no more.
    fn keep(&mut self, bytes: &[u8]) {
        if let Some(free) = self.name.get_mut(self.name_length..) {
            let count = free.len().min(bytes.len());
            free[..count].copy_from_slice(&bytes[..count]);
        }
        self.name_length += bytes.len();
    }

    fn colon(&mut self) -> Result<Position, u8> {
        let next = self.trailer(Position::FieldText)?;
        let length = std::mem::take(&mut self.name_length);
        match self.name.get(..length) {
            Some(name) if is_forbidden(name) => Err(FORBIDDEN_FIELD),
            _ => Ok(next),
        }
    }

    #[inline]
    fn count(&mut self, limit: usize, refusal: u8, next: Position) -> Result<Position, u8> {
        if self.counted == limit {
            return Err(refusal);
        }
        self.counted += 1;
        Ok(next)
    }
}
