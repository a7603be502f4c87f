use crate::answer::{unless_one_refused, unless_refused, written};
use crate::raw;
use crate::{Refusal, Refused};
use std::cmp::Ordering;
use std::fmt::{self, Display, Formatter};
use std::str::FromStr;

/// An HTTP version, ordered by major, then minor, as numbers.
///
/// ```
/// use quizotepec::Version;
/// let version: Version = "http/01.1".parse().unwrap();
/// assert_eq!(version, Version::HTTP_1_1);
/// assert!(Version::HTTP_1_0 < version && version < Version { major: 1, minor: 10 });
/// assert_eq!(version.to_string(), "HTTP/1.1");
/// ```
#[derive(Clone, Copy, Debug, PartialEq, Eq, PartialOrd, Ord, Hash)]
pub struct Version {
    /// The number before the point.
    pub major: u32,
    /// The number behind the point.
    pub minor: u32,
}

impl Version {
    /// `HTTP/1.0`.
    pub const HTTP_1_0: Version = Version { major: 1, minor: 0 };
    /// `HTTP/1.1`.
    pub const HTTP_1_1: Version = Version { major: 1, minor: 1 };
}

/// As [`version_write`] writes it, and numbers that it refuses in the same form.
impl Display for Version {
    fn fmt(&self, f: &mut Formatter<'_>) -> fmt::Result {
        write!(f, "HTTP/{}.{}", self.major, self.minor)
    }
}

/// As [`version_read`] reads it.
impl FromStr for Version {
    type Err = Refusal;

    fn from_str(text: &str) -> Result<Version, Refusal> {
        version_read(text.as_bytes())
    }
}

/// Reads `HTTP/` digits `.` digits; `HTTP` in any case, each number at most 65,535.
///
/// ```
/// let version = quizotepec::version_read(b"HTTP/01.1").unwrap();
/// assert_eq!((version.major, version.minor), (1, 1));
/// ```
#[inline]
pub fn version_read(value: &[u8]) -> Result<Version, Refusal> {
    // SAFETY: the pointer is valid for reads of the length, as a slice's is.
    let v = unsafe { raw::qz_version_read(value.as_ptr(), value.len()) };
    unless_refused(v.number, v.place, Version { major: v.major, minor: v.minor })
}

/// Reads first one version, then the other, and gives their order.
///
/// ```
/// use std::cmp::Ordering;
/// assert_eq!(quizotepec::version_compare(b"HTTP/2.4", b"HTTP/2.13"), Ok(Ordering::Less));
/// ```
#[inline]
pub fn version_compare(first: &[u8], second: &[u8]) -> Result<Ordering, Refused> {
    // SAFETY: both pointers are valid for reads of their lengths.
    let o = unsafe { raw::qz_version_compare(first.as_ptr(), first.len(), second.as_ptr(), second.len()) };
    let order = match o.order {
        raw::LESS => Ordering::Less,
        raw::EQUAL => Ordering::Equal,
        _ => Ordering::Greater,
    };
    unless_one_refused(o.number, o.place, o.which, order)
}

/// Writes a version in capitals without leading zeros and gives its length.
///
/// ```
/// use quizotepec::{version_write, Refusal, Version};
/// let mut out = [b'.'; 9];
/// assert_eq!(version_write(Version::HTTP_1_1, &mut out), Ok(8));
/// assert_eq!(&out, b"HTTP/1.1.");
/// let above = Version { major: 65_536, minor: 0 };
/// assert_eq!(version_write(above, &mut out), Err(Refusal::OutOfRange { place: 0 }));
/// ```
pub fn version_write(version: Version, out: &mut [u8]) -> Result<usize, Refusal> {
    // SAFETY: the output is borrowed alone and valid for writes of its length.
    written(unsafe { raw::qz_version_write(version.major, version.minor, out.as_mut_ptr(), out.len()) })
}
