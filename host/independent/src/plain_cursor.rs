//! A place in a header value, which the plain readers move forward.

use crate::number::{MALFORMED, NUMBER_ABOVE_LIMIT, VALUE_TOO_LONG};
use crate::plain_classes::{is_in, run, PAIR, QUOTED, TOKEN};
use crate::{Refusal, Span, HEADER_LIMIT};

pub struct Cursor<'a> {
    pub input: &'a [u8],
    pub at: usize,
}

impl<'a> Cursor<'a> {
    /// Before the first byte of a value, unless it is too long: 13 comes before all else.
    #[inline]
    pub fn new(input: &'a [u8]) -> Result<Self, Refusal> {
        if input.len() > HEADER_LIMIT {
            return Err(Refusal::new(VALUE_TOO_LONG, HEADER_LIMIT));
        }
        Ok(Cursor { input, at: 0 })
    }

    #[inline]
    pub fn peek(&self) -> Option<u8> {
        self.input.get(self.at).copied()
    }

    #[cold]
    pub fn malformed(&self) -> Refusal {
        Refusal::new(MALFORMED, self.at)
    }

    #[inline]
    pub fn expect(&mut self, byte: u8) -> Result<(), Refusal> {
        if self.peek() != Some(byte) {
            return Err(self.malformed());
        }
        self.at += 1;
        Ok(())
    }

    #[inline]
    pub fn expect_end(&self) -> Result<(), Refusal> {
        match self.peek() {
            None => Ok(()),
            Some(_) => Err(self.malformed()),
        }
    }

    /// Goes behind what every value of the kind starts with, letter case ignored.
    #[inline]
    pub fn expect_start(&mut self, start: &[u8]) -> Result<(), Refusal> {
        if !self.input.get(..start.len()).is_some_and(|front| front.eq_ignore_ascii_case(start)) {
            return Err(no_start(self.input, start));
        }
        self.at = start.len();
        Ok(())
    }

    /// The bytes of the class that stand here; there may be none.
    #[inline]
    pub fn run(&mut self, class: u8) -> Span {
        let span = Span { start: self.at, length: run(&self.input[self.at..], class) };
        self.at = span.end();
        span
    }

    /// The bytes of the class that stand here, of which there must be one.
    #[inline]
    pub fn some(&mut self, class: u8) -> Result<Span, Refusal> {
        match self.run(class) {
            Span { length: 0, .. } => Err(self.malformed()),
            span => Ok(span),
        }
    }

    #[inline]
    pub fn token(&mut self) -> Result<Span, Refusal> {
        self.some(TOKEN)
    }

    /// What stands between the quotes of a quoted string, whose first quote is behind.
    #[inline]
    pub fn quoted_rest(&mut self) -> Result<Span, Refusal> {
        let start = self.at;
        loop {
            self.run(QUOTED);
            match self.peek() {
                Some(b'"') => break,
                Some(b'\\') => self.at += 1,
                _ => return Err(self.malformed()),
            }
            if !self.peek().is_some_and(|byte| is_in(byte, PAIR)) {
                return Err(self.malformed());
            }
            self.at += 1;
        }
        self.at += 1;
        Ok(Span { start, length: self.at - 1 - start })
    }

    /// The value of the digits that stand here; without one it is 0. The limit is far below 2^60.
    #[inline]
    pub fn number(&mut self, limit: u64) -> Result<u64, Refusal> {
        let mut value = 0;
        while let Some(byte @ b'0'..=b'9') = self.peek() {
            value = value * 10 + u64::from(byte - b'0');
            if value > limit {
                return Err(Refusal::new(NUMBER_ABOVE_LIMIT, self.at));
            }
            self.at += 1;
        }
        Ok(value)
    }
}

/// Refusal 1 where the value no longer is as every value of its kind starts, letter case ignored.
#[cold]
fn no_start(input: &[u8], start: &[u8]) -> Refusal {
    let same = input.iter().zip(start).take_while(|(byte, want)| byte.eq_ignore_ascii_case(want));
    Refusal::new(MALFORMED, same.count())
}
