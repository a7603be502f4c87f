use crate::answer::{unless_refused, written};
use crate::raw;
use crate::Refusal;
use std::time::Duration;

/// Delta-seconds that were read.
#[derive(Clone, Copy, Debug, PartialEq, Eq, Hash)]
pub struct Seconds {
    /// 0 to 2,147,483,647, or 2,147,483,648 where they were capped.
    pub value: u32,
    /// The number is above 2,147,483,647, and `value` stands for it.
    pub capped: bool,
}

/// The time that `value` names.
///
/// ```
/// use std::time::Duration;
/// let age = quizotepec::delta_read(b"3600").unwrap();
/// assert_eq!(Duration::from(age), Duration::from_secs(3600));
/// ```
impl From<Seconds> for Duration {
    fn from(seconds: Seconds) -> Duration {
        Duration::from_secs(seconds.value.into())
    }
}

/// Reads delta-seconds. More than 2,147,483,647 are capped to 2,147,483,648, and the answer says so.
///
/// ```
/// use quizotepec::{delta_read, Refusal, Seconds};
/// assert_eq!(delta_read(b"3600"), Ok(Seconds { value: 3600, capped: false }));
/// assert_eq!(delta_read(b"99999999999"), Ok(Seconds { value: 2_147_483_648, capped: true }));
/// assert_eq!(delta_read(b"99999999999x"), Err(Refusal::Malformed { place: 11 }));
/// ```
pub fn delta_read(value: &[u8]) -> Result<Seconds, Refusal> {
    // SAFETY: the pointer is valid for reads of the length.
    let s = unsafe { raw::qz_delta_read(value.as_ptr(), value.len()) };
    unless_refused(s.number, s.place, Seconds { value: s.value, capped: s.capped })
}

/// Reads a qvalue in thousandths, 0 to 1000.
///
/// ```
/// assert_eq!(quizotepec::qvalue_read(b"0.5"), Ok(500));
/// ```
pub fn qvalue_read(value: &[u8]) -> Result<u16, Refusal> {
    // SAFETY: the pointer is valid for reads of the length.
    let q = unsafe { raw::qz_qvalue_read(value.as_ptr(), value.len()) };
    // Nothing is cut off: a qvalue has at most 1000 thousandths.
    unless_refused(q.number, q.place, q.value as u16)
}

/// Writes the shortest form of a qvalue given in thousandths and gives its length.
///
/// ```
/// use quizotepec::{qvalue_write, Refusal};
/// let mut out = [b'.'; 4];
/// assert_eq!(qvalue_write(500, &mut out), Ok(3));
/// assert_eq!(&out, b"0.5.");
/// assert_eq!(qvalue_write(1001, &mut out), Err(Refusal::OutOfRange { place: 0 }));
/// ```
pub fn qvalue_write(thousandths: u16, out: &mut [u8]) -> Result<usize, Refusal> {
    // SAFETY: the output is borrowed alone and valid for writes of its length.
    written(unsafe { raw::qz_qvalue_write(thousandths, out.as_mut_ptr(), out.len()) })
}
