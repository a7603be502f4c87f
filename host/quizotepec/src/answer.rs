//! The library's answers as results.

use crate::raw;
use crate::{Refusal, Refused, Which};

/// `answer`, or the refusal where the number is not 0.
#[inline]
pub(crate) fn unless_refused<T>(number: u8, place: usize, answer: T) -> Result<T, Refusal> {
    match number {
        0 => Ok(answer),
        _ => Err(Refusal::numbered(number, place)),
    }
}

/// `answer`, or which input was refused where the number is not 0.
#[inline]
pub(crate) fn unless_one_refused<T>(number: u8, place: usize, which: u8, answer: T) -> Result<T, Refused> {
    let which = if which == 1 { Which::First } else { Which::Second };
    unless_refused(number, place, answer).map_err(|refusal| Refused { which, refusal })
}

/// What a writer did.
pub(crate) fn written(w: raw::QzWritten) -> Result<usize, Refusal> {
    unless_refused(w.number, w.place, w.length)
}

/// Whether two inputs are equal, or match.
#[inline]
pub(crate) fn same(s: raw::QzSame) -> Result<bool, Refused> {
    unless_one_refused(s.number, s.place, s.which, s.same)
}
