use crate::raw;
use crate::Decoded;
use std::fmt;

/// What a call of [`Pieces::feed`] or [`Pieces::feed_at_most`] took, and its answer.
#[derive(Clone, Copy, Debug, PartialEq, Eq, Hash)]
pub struct Fed {
    /// How many bytes of the piece were taken: all that the quota allows, fewer only where the body ends or at a
    /// refused byte, which is not taken.
    pub took: usize,
    /// The answer about all bytes taken so far and the refused byte, if there is one.
    pub answer: Decoded,
}

/// A chunked body that is decoded as its bytes arrive.
///
/// The data go to the lent output as they come. Its length is the room; while the output is lent, no other can take
/// its place. Places count from the body's first byte, that of the trailer too, whose bytes are not kept. Once the
/// body is whole or refused, later calls take nothing and repeat the answer. A framed body may have
/// 1,099,511,627,776 bytes.
///
/// ```
/// use quizotepec::{Decoded, Pieces};
///
/// fn body_of<'a>(queue: impl Iterator<Item = &'a [u8]>, out: &mut [u8]) -> Option<usize> {
///     let mut pieces = Pieces::new(out);
///     for piece in queue {
///         match pieces.feed(piece).answer {
///             Decoded::Whole { length, .. } => return Some(length),
///             Decoded::More => {}
///             Decoded::Refused(refusal) => {
///                 println!("{refusal}");
///                 return None;
///             }
///         }
///     }
///     None
/// }
///
/// let mut out = [b'.'; 8];
/// let arrived: [&[u8]; 4] = [b"5\r", b"\nhel", b"lo\r\n0", b"\r\n\r\n"];
/// assert_eq!(body_of(arrived.into_iter(), &mut out), Some(5));
/// assert_eq!(&out, b"hello...");
/// ```
pub struct Pieces<'a> {
    state: raw::QzPieces,
    /// How many bytes of data stand at the front of the output.
    written: usize,
    out: &'a mut [u8],
}

impl<'a> Pieces<'a> {
    /// Before the first byte of a body. The output's length is the room.
    ///
    /// ```
    /// use quizotepec::{Decoded, Pieces, Refusal};
    /// let mut out = [0; 4];
    /// let mut pieces = Pieces::new(&mut out);
    /// let fed = pieces.feed(b"5");
    /// assert_eq!(fed.answer, Decoded::Refused(Refusal::BodyTooLarge { place: 0 }));
    /// assert_eq!((fed.took, pieces.taken()), (0, 0));
    /// ```
    #[must_use]
    pub fn new(out: &'a mut [u8]) -> Self {
        // SAFETY: it takes a number.
        let state = unsafe { raw::qz_pieces_start(out.len()) };
        Pieces { state, written: 0, out }
    }

    /// Takes the next bytes: all of the piece, fewer only where the body ends or at a refused byte.
    ///
    /// ```
    /// use quizotepec::{Decoded, Fed, Pieces, Refusal, Span};
    ///
    /// let mut out = [b'.'; 8];
    /// let mut pieces = Pieces::new(&mut out);
    /// let whole = Decoded::Whole { taken: 20, length: 5, trailer: Span { start: 13, length: 5 } };
    /// for (place, byte) in b"5\r\nhello\r\n0\r\nA:b\r\n\r\n".iter().enumerate() {
    ///     let answer = if place == 19 { whole } else { Decoded::More };
    ///     assert_eq!(pieces.feed(&[*byte]), Fed { took: 1, answer });
    /// }
    /// assert_eq!(pieces.feed(b"0"), Fed { took: 0, answer: whole });
    /// assert_eq!(&out, b"hello...");
    ///
    /// let mut pieces = Pieces::new(&mut out);
    /// let answer = Decoded::Refused(Refusal::Malformed { place: 8 });
    /// assert_eq!(pieces.feed(b"5\r\nhelloX"), Fed { took: 8, answer });
    /// assert_eq!(pieces.data(), b"hello");
    /// ```
    #[inline]
    #[must_use]
    pub fn feed(&mut self, piece: &[u8]) -> Fed {
        self.feed_at_most(piece, usize::MAX)
    }

    /// The same of at most `quota` bytes; what lies beyond them does not count. A quota of 0 is
    /// [`OutOfRange`](crate::Refusal::OutOfRange), which changes nothing and is no answer about the body.
    ///
    /// ```
    /// use quizotepec::{Decoded, Fed, Pieces, Refusal};
    /// let mut out = [0; 8];
    /// let mut pieces = Pieces::new(&mut out);
    /// let piece = b"5\r\nhello\r\n";
    /// assert_eq!(pieces.feed_at_most(piece, 3), Fed { took: 3, answer: Decoded::More });
    /// let answer = Decoded::Refused(Refusal::OutOfRange { place: 0 });
    /// assert_eq!(pieces.feed_at_most(&piece[3..], 0), Fed { took: 0, answer });
    /// assert_eq!(pieces.feed_at_most(b"", 1), Fed { took: 0, answer: Decoded::More });
    /// assert_eq!(pieces.feed_at_most(&piece[3..], 100), Fed { took: 7, answer: Decoded::More });
    /// ```
    #[inline]
    #[must_use]
    pub fn feed_at_most(&mut self, piece: &[u8], quota: usize) -> Fed {
        let (from, to, room) = (piece.as_ptr(), self.out.as_mut_ptr(), self.out.len());
        // SAFETY: the output is borrowed alone, so the piece does not overlap it; both are valid for their lengths.
        let fed = unsafe { raw::qz_pieces_feed(self.state, from, piece.len(), quota, to, room) };
        self.state = fed.pieces;
        self.written = fed.written;
        Fed { took: fed.took, answer: Decoded::of(fed.body) }
    }

    /// The data so far, which are at the front of the output; the rest of it is as it was lent.
    ///
    /// ```
    /// use quizotepec::{Decoded, Pieces};
    /// let mut out = [b'.'; 8];
    /// let mut pieces = Pieces::new(&mut out);
    /// assert_eq!(pieces.feed(b"5\r\nhell").answer, Decoded::More);
    /// assert_eq!(pieces.data(), b"hell");
    /// assert_eq!(pieces.into_output(), b"hell....");
    /// ```
    #[must_use]
    pub fn data(&self) -> &[u8] {
        &self.out[..self.written]
    }

    /// How many bytes of the body were taken, over all calls.
    ///
    /// ```
    /// use quizotepec::{Decoded, Pieces};
    /// let mut out = [0; 8];
    /// let mut pieces = Pieces::new(&mut out);
    /// assert_eq!(pieces.feed(b"5\r\nhe").answer, Decoded::More);
    /// assert_eq!(pieces.feed(b"llo\r").answer, Decoded::More);
    /// assert_eq!(pieces.taken(), 9);
    /// ```
    #[must_use]
    pub fn taken(&self) -> usize {
        self.state.taken
    }

    /// Gives back the output, with the data so far at its front.
    #[must_use]
    pub fn into_output(self) -> &'a mut [u8] {
        self.out
    }
}

/// The counts alone: the output may be large.
impl fmt::Debug for Pieces<'_> {
    fn fmt(&self, f: &mut fmt::Formatter<'_>) -> fmt::Result {
        let mut counts = f.debug_struct("Pieces");
        counts.field("taken", &self.taken()).field("length", &self.data().len());
        counts.field("room", &self.out.len()).finish_non_exhaustive()
    }
}
