//! A chunked decoder in one pass and a writer, for speed: the baseline of the benchmarks.
//!
//! The decoder copies each chunk as it goes, so a body that turns out not to be whole leaves bytes in the
//! output. Its answers are those of `chunked::decode`.

use crate::chunked::{is_forbidden, BODY_LIMIT, LAST_CHUNK, LINE_LIMIT, TRAILER_LIMIT};
use crate::number::{
    BODY_TOO_LARGE, FORBIDDEN_FIELD, LINE_TOO_LONG, MALFORMED, OUTPUT_TOO_SHORT, TRAILER_TOO_LONG,
};
use crate::plain_classes::{is_in, HEX_VALUES, NO_DIGIT, PAIR, TEXT, TOKEN};
use crate::{Refusal, Span, OUT_OF_RANGE};

#[derive(Clone, Copy, Debug, PartialEq, Eq, Hash)]
pub enum Answer {
    Whole { taken: usize, length: usize, trailer: Span },
    More,
    Refused(Refusal),
}

/// Why reading stopped before the body was whole.
enum Stop {
    More,
    Refused(Refusal),
}

type Step<T> = Result<T, Stop>;

/// Reads bytes that count toward one limit: a chunk line or the trailer.
struct Reader<'a> {
    input: &'a [u8],
    at: usize,
    /// Where the counted bytes begin.
    start: usize,
    limit: usize,
    refusal: u8,
}

const CRLF: &[u8] = b"\r\n";

fn refused<T>(number: u8, place: usize) -> Step<T> {
    Err(Stop::Refused(Refusal::new(number, place)))
}

impl Reader<'_> {
    #[inline]
    fn peek(&self) -> Step<u8> {
        self.input.get(self.at).copied().ok_or(Stop::More)
    }

    /// Takes a byte that fits the grammar here.
    #[inline]
    fn take(&mut self) -> Step<()> {
        if self.at - self.start >= self.limit {
            return refused(self.refusal, self.at);
        }
        self.at += 1;
        Ok(())
    }

    fn expect(&mut self, byte: u8) -> Step<()> {
        if self.peek()? != byte {
            return refused(MALFORMED, self.at);
        }
        self.take()
    }

    #[inline]
    fn run(&mut self, class: u8) -> Step<usize> {
        let start = self.at;
        while is_in(self.peek()?, class) {
            self.take()?;
        }
        Ok(self.at - start)
    }

    fn token(&mut self) -> Step<()> {
        match self.run(TOKEN)? {
            0 => refused(MALFORMED, self.at),
            _ => Ok(()),
        }
    }

    fn quoted_rest(&mut self) -> Step<()> {
        loop {
            let byte = self.peek()?;
            if !is_in(byte, TEXT) {
                return refused(MALFORMED, self.at);
            }
            self.take()?;
            match byte {
                b'"' => return Ok(()),
                b'\\' if is_in(self.peek()?, PAIR) => self.take()?,
                b'\\' => return refused(MALFORMED, self.at),
                _ => {}
            }
        }
    }

    fn extension_value(&mut self) -> Step<()> {
        if self.peek()? != b'"' {
            return self.token();
        }
        self.take()?;
        self.quoted_rest()
    }

    fn extensions(&mut self) -> Step<()> {
        while self.peek()? == b';' {
            self.take()?;
            self.token()?;
            if self.peek()? == b'=' {
                self.take()?;
                self.extension_value()?;
            }
        }
        Ok(())
    }

    fn field_name(&mut self) -> Step<()> {
        let start = self.at;
        self.token()?;
        let colon = self.at;
        // 1 and 6 come before 15 at the colon.
        self.expect(b':')?;
        if is_forbidden(&self.input[start..colon]) {
            return refused(FORBIDDEN_FIELD, colon);
        }
        Ok(())
    }
}

/// The place after a CRLF that stands at `at`.
#[inline]
fn line_break(input: &[u8], at: usize) -> Step<usize> {
    match input.get(at..at + CRLF.len()) {
        Some(CRLF) => Ok(at + CRLF.len()),
        _ => Err(no_line_break(input, at)),
    }
}

/// Why no CRLF stands at `at`.
#[cold]
fn no_line_break(input: &[u8], at: usize) -> Stop {
    let place = if input.get(at) == Some(&CRLF[0]) { at + 1 } else { at };
    match input.get(place) {
        None => Stop::More,
        Some(_) => Stop::Refused(Refusal::new(MALFORMED, place)),
    }
}

/// The value of the hex digits at `start`, and the place behind them.
#[inline]
fn chunk_size(input: &[u8], start: usize, room_left: usize) -> Step<(usize, usize)> {
    let (mut at, mut value) = (start, 0);
    loop {
        let digit = HEX_VALUES[usize::from(*input.get(at).ok_or(Stop::More)?)];
        if digit == NO_DIGIT {
            break;
        }
        if at - start >= LINE_LIMIT {
            return refused(LINE_TOO_LONG, at);
        }
        // The first test keeps the shift from losing bits.
        if value > room_left >> 4 || value << 4 | usize::from(digit) > room_left {
            return refused(BODY_TOO_LARGE, at);
        }
        value = value << 4 | usize::from(digit);
        at += 1;
    }
    if at == start {
        return refused(MALFORMED, at);
    }
    Ok((value, at))
}

/// The size, and where the data begin.
fn chunk_line(input: &[u8], start: usize, room_left: usize) -> Step<(usize, usize)> {
    let (size, mut at) = chunk_size(input, start, room_left)?;
    if input.get(at) == Some(&b';') {
        let mut line = Reader { input, at, start, limit: LINE_LIMIT, refusal: LINE_TOO_LONG };
        line.extensions()?;
        at = line.at;
    }
    Ok((size, line_break(input, at)?))
}

/// The trailer, and the place behind the closing CRLF.
fn trailer(input: &[u8], start: usize) -> Step<(Span, usize)> {
    let mut lines = Reader { input, at: start, start, limit: TRAILER_LIMIT, refusal: TRAILER_TOO_LONG };
    while lines.peek()? != b'\r' {
        lines.field_name()?;
        lines.run(TEXT)?;
        lines.expect(b'\r')?;
        lines.expect(b'\n')?;
    }
    Ok((Span { start, length: lines.at - start }, line_break(input, lines.at)?))
}

fn decode_steps(input: &[u8], out: &mut [u8]) -> Step<Answer> {
    let (mut at, mut length) = (0, 0);
    loop {
        let (size, data) = chunk_line(input, at, out.len() - length)?;
        if size == 0 {
            let (trailer, taken) = trailer(input, data)?;
            return Ok(Answer::Whole { taken, length, trailer });
        }
        let Some(chunk) = input.get(data..data.saturating_add(size)) else {
            return Err(Stop::More);
        };
        out[length..length + size].copy_from_slice(chunk);
        length += size;
        at = line_break(input, data + size)?;
    }
}

pub fn plain_decode(input: &[u8], out: &mut [u8]) -> Answer {
    match decode_steps(input, out) {
        Ok(whole) => whole,
        Err(Stop::More) => Answer::More,
        Err(Stop::Refused(refusal)) => Answer::Refused(refusal),
    }
}

/// The size line of a chunk: its hex digits in capitals, then CRLF, at the front of the bytes.
struct SizeLine {
    bytes: [u8; SizeLine::LONGEST],
    length: usize,
}

impl SizeLine {
    const LONGEST: usize = usize::BITS as usize / 4 + CRLF.len();

    /// Of a size above 0.
    fn new(size: usize) -> Self {
        let digits = (usize::BITS - size.leading_zeros()).div_ceil(4) as usize;
        let length = digits + CRLF.len();
        let mut bytes = [0; SizeLine::LONGEST];
        for (place, byte) in bytes[..digits].iter_mut().rev().enumerate() {
            *byte = b"0123456789ABCDEF"[size >> (4 * place) & 0xF];
        }
        bytes[digits..length].copy_from_slice(CRLF);
        SizeLine { bytes, length }
    }

    /// The length of a chunk of this size, framing included.
    fn framed(&self, size: usize) -> usize {
        self.length + size + CRLF.len()
    }

    /// Fills the output, which is as long as the framed chunk.
    #[inline]
    fn write(&self, chunk: &[u8], out: &mut [u8]) {
        let (line, out) = out.split_at_mut(self.length);
        line.copy_from_slice(&self.bytes[..self.length]);
        let (data, end) = out.split_at_mut(chunk.len());
        data.copy_from_slice(chunk);
        end.copy_from_slice(CRLF);
    }
}

/// Writes full chunks of equal length, and what remains of the output behind them.
fn write_full<'a>(body: &[u8], chunk_len: usize, line: &SizeLine, out: &'a mut [u8]) -> &'a mut [u8] {
    let framed = line.framed(chunk_len);
    let (full, behind) = out.split_at_mut(body.len() / chunk_len * framed);
    for (chunk, out) in body.chunks_exact(chunk_len).zip(full.chunks_exact_mut(framed)) {
        line.write(chunk, out);
    }
    behind
}

/// Its answers are those of `chunked::encode`; what is written stands at the front of the output.
pub fn plain_encode(body: &[u8], chunk_len: usize, out: &mut [u8]) -> Result<usize, Refusal> {
    if chunk_len == 0 {
        return Err(OUT_OF_RANGE);
    }
    if body.len() > BODY_LIMIT {
        return Err(Refusal::new(BODY_TOO_LARGE, 0));
    }
    // A longer chunk length gives the same one chunk; of an empty body, none.
    let chunk_len = chunk_len.min(body.len().max(1));
    let rest = body.chunks_exact(chunk_len).remainder();
    let (line, rest_line) = (SizeLine::new(chunk_len), SizeLine::new(rest.len()));
    let rest_framed = if rest.is_empty() { 0 } else { rest_line.framed(rest.len()) };
    let length = body.len() / chunk_len * line.framed(chunk_len) + rest_framed + LAST_CHUNK.len();
    let Some(out) = out.get_mut(..length) else {
        return Err(Refusal::new(OUTPUT_TOO_SHORT, 0));
    };
    let (rest_out, end) = write_full(body, chunk_len, &line, out).split_at_mut(rest_framed);
    if !rest.is_empty() {
        rest_line.write(rest, rest_out);
    }
    end.copy_from_slice(LAST_CHUNK);
    Ok(length)
}
