use crate::answer::written;
use crate::raw;
use crate::{Refusal, Span};

/// The answer about a chunked body: that of [`chunked_decode`], and of [`Pieces`](crate::Pieces) after each call.
#[derive(Clone, Copy, Debug, PartialEq, Eq, Hash)]
pub enum Decoded {
    /// The input begins with a body, whose data are at the front of the output.
    Whole {
        /// How many bytes of the input are the body.
        taken: usize,
        /// How many bytes of data the body has.
        length: usize,
        /// Where the trailer stands in the body: all its lines, without the closing CRLF. Without one, the start is
        /// that CRLF and the length 0.
        trailer: Span,
    },
    /// The input is the beginning of a body. [`chunked_decode`] has written nothing, [`Pieces`](crate::Pieces) the
    /// data so far.
    More,
    /// No continuation makes the input a body within the limits; written is the same as after `More`.
    /// [`Refusal::OutOfRange`] is about an argument, and says nothing of the body.
    Refused(Refusal),
}

impl Decoded {
    /// The trailer's lines, in the input that was read; none unless the answer is `Whole`. After
    /// [`Pieces`](crate::Pieces), which keeps none of their bytes, that input is the body from its first byte.
    ///
    /// ```
    /// let body = b"5\r\nhello\r\n0\r\nETag: \"x\"\r\n\r\n";
    /// let decoded = quizotepec::chunked_decode(body, &mut [0; 5]);
    /// assert_eq!(decoded.trailer_in(body), Some(&b"ETag: \"x\"\r\n"[..]));
    /// ```
    pub fn trailer_in<'a>(&self, input: &'a [u8]) -> Option<&'a [u8]> {
        match self {
            Decoded::Whole { trailer, .. } => trailer.of(input),
            _ => None,
        }
    }

    #[inline]
    pub(crate) fn of(b: raw::QzBody) -> Decoded {
        match b.state {
            raw::WHOLE => {
                let trailer = Span { start: b.trailer_start, length: b.trailer_length };
                Decoded::Whole { taken: b.taken, length: b.length, trailer }
            }
            raw::MORE => Decoded::More,
            _ => Decoded::Refused(Refusal::numbered(b.number, b.place)),
        }
    }
}

/// Reads a chunked body at the front of the input; the room is the output's length.
///
/// ```
/// use quizotepec::{chunked_decode, Decoded, Refusal, Span};
/// let mut out = [b'.'; 6];
/// let body = b"5\r\nhello\r\n0\r\n\r\n";
/// assert_eq!(chunked_decode(&body[..9], &mut out), Decoded::More);
/// let trailer = Span { start: 13, length: 0 };
/// assert_eq!(chunked_decode(body, &mut out), Decoded::Whole { taken: 15, length: 5, trailer });
/// assert_eq!(&out, b"hello.");
/// let refusal = Refusal::BodyTooLarge { place: 0 };
/// assert_eq!(chunked_decode(body, &mut out[..4]), Decoded::Refused(refusal));
/// let refusal = Refusal::ForbiddenField { place: 17 };
/// assert_eq!(chunked_decode(b"0\r\nContent-Length: 5\r\n\r\n", &mut out), Decoded::Refused(refusal));
/// ```
#[must_use]
#[inline]
pub fn chunked_decode(input: &[u8], out: &mut [u8]) -> Decoded {
    // SAFETY: the output is borrowed alone, so the input does not overlap it; both are valid for their lengths.
    Decoded::of(unsafe { raw::qz_chunked_decode(input.as_ptr(), input.len(), out.as_mut_ptr(), out.len()) })
}

/// Writes a body in chunks of `chunk_len` bytes and what remains, and gives the length of the frame.
///
/// ```
/// use quizotepec::{chunked_encode, Refusal};
/// let mut out = [0; 25];
/// assert_eq!(chunked_encode(b"hello", 2, &mut out), Ok(25));
/// assert_eq!(&out, b"2\r\nhe\r\n2\r\nll\r\n1\r\no\r\n0\r\n\r\n");
/// assert_eq!(chunked_encode(b"hello", 0, &mut out), Err(Refusal::OutOfRange { place: 0 }));
/// ```
#[inline]
pub fn chunked_encode(body: &[u8], chunk_len: usize, out: &mut [u8]) -> Result<usize, Refusal> {
    let (from, to) = (body.as_ptr(), out.as_mut_ptr());
    // SAFETY: the output is borrowed alone, so the body does not overlap it; both are valid for their lengths.
    written(unsafe { raw::qz_chunked_encode(from, body.len(), chunk_len, to, out.len()) })
}
