use crate::raw;
use std::fmt::{Display, Formatter, Result};

/// A version of the library.
#[derive(Clone, Copy, Debug, PartialEq, Eq, PartialOrd, Ord, Hash)]
pub struct LibraryVersion {
    /// The first number. While it is 0, a new second number may change what callers see.
    pub major: u32,
    /// The second number.
    pub minor: u32,
    /// The third number.
    pub patch: u32,
}

impl LibraryVersion {
    /// That of this crate and of the header it was made with.
    pub const OF_CRATE: LibraryVersion =
        LibraryVersion { major: raw::VERSION_MAJOR, minor: raw::VERSION_MINOR, patch: raw::VERSION_PATCH };
}

impl Display for LibraryVersion {
    fn fmt(&self, f: &mut Formatter<'_>) -> Result {
        write!(f, "{}.{}.{}", self.major, self.minor, self.patch)
    }
}

/// The version of the library that is linked.
///
/// ```
/// use quizotepec::{library_version, LibraryVersion};
/// assert_eq!(library_version(), LibraryVersion::OF_CRATE);
/// ```
pub fn library_version() -> LibraryVersion {
    // SAFETY: it takes nothing.
    let v = unsafe { raw::qz_library_version() };
    LibraryVersion { major: v.major, minor: v.minor, patch: v.patch }
}
