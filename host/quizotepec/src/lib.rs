//! HTTP/1.1 protocol parameters and chunked bodies: safe functions over the proved library.
//!
//! A reader takes a header value whole; the caller trims outer blanks. A writer writes at the front of the lent
//! output, keeps the rest and gives the length. A [`Refusal`] says why and where; a refusal writes nothing. The
//! parts of a value come as places in the bytes that were read: [`Span::of`] gives their bytes. [`Pieces`] decodes a
//! chunked body as it arrives, and alone writes data before it knows the whole.
//!
//! ```
//! use quizotepec::{chunked_decode, version_read, Decoded, Refusal, Version};
//!
//! assert_eq!(version_read(b"HTTP/1.1"), Ok(Version::HTTP_1_1));
//! assert_eq!(version_read(b"HTP/1.1"), Err(Refusal::Malformed { place: 2 }));
//!
//! let mut out = [0; 16];
//! match chunked_decode(b"5\r\nhello\r\n0\r\n\r\n", &mut out) {
//!     Decoded::Whole { taken, length, .. } => assert_eq!((taken, &out[..length]), (15, &b"hello"[..])),
//!     Decoded::More => println!("the body goes on"),
//!     Decoded::Refused(refusal) => println!("{refusal}"),
//! }
//! ```
//!
//! No function keeps anything between calls, so that any number of threads may call them; what is known of a body
//! that arrives in pieces is in its [`Pieces`]. [`date_read_now`] alone looks at the clock; [`date_read`] takes the
//! present year, which says what two digits of a year mean.
//!
//! The crate has no dependency but the library's archive, `libquizotepec.a`. Its build script takes that of the
//! folder `QUIZOTEPEC_LIB_DIR`, or else the one that `host/archive` makes in the repository. The oldest rustc for
//! the crate is 1.65, for its tests 1.80.

#![deny(missing_docs)]
#![warn(missing_debug_implementations, rust_2018_idioms)]

mod answer;
mod chunked;
mod dates;
mod etag;
mod language;
mod library;
mod media;
mod numbers;
mod pieces;
mod products;
mod ranges;
#[allow(dead_code)] // generated whole; a test holds that each of its functions is called
mod raw;
mod refusal;
mod span;
mod url;
mod version;

pub use chunked::{chunked_decode, chunked_encode, Decoded};
pub use dates::{
    date_read, date_read_at, date_read_now, date_write, date_write_time, Date, FIRST_PRESENT_YEAR,
    LAST_PRESENT_YEAR,
};
pub use etag::{etag_read, etag_strong_match, etag_weak_match, EntityTag};
pub use language::{language_equal, language_read, LanguageTag};
pub use library::{library_version, LibraryVersion};
pub use media::{
    media_charset, media_charset_assuming_iso_8859_1, media_equal, media_read, Charset, MediaType, Parameter,
};
pub use numbers::{delta_read, qvalue_read, qvalue_write, Seconds};
pub use pieces::{Fed, Pieces};
pub use products::{products_read, Products};
pub use ranges::{content_range_write, ranges_read, Range, RangeSet, Ranges};
pub use refusal::{Refusal, Refused, Which};
pub use span::Span;
pub use url::{url_equal, url_normalize, url_normalized, url_read, NormalUrl, Url};
pub use version::{version_compare, version_read, version_write, Version};
