use crate::answer::{unless_refused, written};
use crate::raw;
use crate::Refusal;
use std::time::{Duration, SystemTime, UNIX_EPOCH};

/// How many bytes the RFC 1123 form has.
const LENGTH: usize = 29;

/// A date, a time of day and the instant that they name.
#[derive(Clone, Copy, Debug, PartialEq, Eq, Hash)]
pub struct Date {
    /// 1583 to 9999.
    pub year: u32,
    /// From 1.
    pub month: u32,
    /// From 1.
    pub day: u32,
    /// 0 to 23.
    pub hour: u32,
    /// 0 to 59.
    pub minute: u32,
    /// 0 to 59.
    pub second: u32,
    /// Since 1970-01-01 00:00:00; negative before it.
    pub seconds: i64,
}

impl Date {
    /// The instant that `seconds` names, where a [`SystemTime`] can hold it.
    ///
    /// ```
    /// use std::time::{Duration, UNIX_EPOCH};
    /// let date = quizotepec::date_read(b"Sun, 06 Nov 1994 08:49:37 GMT", 2026).unwrap();
    /// assert_eq!(date.system_time(), Some(UNIX_EPOCH + Duration::from_secs(784_111_777)));
    /// let date = quizotepec::date_read(b"Wed, 31 Dec 1969 23:59:59 GMT", 2026).unwrap();
    /// assert_eq!(date.system_time(), Some(UNIX_EPOCH - Duration::from_secs(1)));
    /// ```
    pub fn system_time(&self) -> Option<SystemTime> {
        let apart = Duration::from_secs(self.seconds.unsigned_abs());
        if self.seconds < 0 {
            UNIX_EPOCH.checked_sub(apart)
        } else {
            UNIX_EPOCH.checked_add(apart)
        }
    }
}

/// The first present year in which dates are read, 1632: 49 years before it is 1583, the first year of a [`Date`].
pub const FIRST_PRESENT_YEAR: u32 = raw::FIRST_PRESENT_YEAR;

/// The last present year in which dates are read, 9949: 50 years after it is 9999, the last year of a [`Date`].
pub const LAST_PRESENT_YEAR: u32 = raw::LAST_PRESENT_YEAR;

/// Reads a date in the form of RFC 1123, of RFC 850 or of asctime.
///
/// The year has two digits in the form of RFC 850 alone. It is the one with those digits from 49 years before the
/// present year to 50 years after it: by RFC 2616 19.3 a date that appears more than 50 years ahead is past. The name
/// of the day is held to that year. In the other forms the present year changes nothing.
///
/// Present years are 1632 to 9949, [`FIRST_PRESENT_YEAR`] to [`LAST_PRESENT_YEAR`]. With another one the answer is
/// [`Refusal::OutOfRange`], refusal 9, for every form, and the value is not read.
///
/// ```
/// use quizotepec::{date_read, Refusal};
/// let date = date_read(b"Sun, 06 Nov 1994 08:49:37 GMT", 2026).unwrap();
/// assert_eq!((date.year, date.month, date.day), (1994, 11, 6));
/// assert_eq!((date.hour, date.minute, date.second), (8, 49, 37));
/// assert_eq!(date.seconds, 784_111_777);
/// assert_eq!(date_read(b"Thu, 29 Feb 1900 00:00:00 GMT", 2026), Err(Refusal::NoSuchDate { place: 0 }));
/// assert_eq!(date_read(b"Mon, 06 Nov 1994 08:49:37 GMT", 2026), Err(Refusal::WrongDayName { place: 0 }));
///
/// // In 2026 two digits mean 1977 to 2076.
/// let year = |value: &[u8], present_year| date_read(value, present_year).map(|date| date.year);
/// assert_eq!(year(b"Wednesday, 01-Jan-76 00:00:00 GMT", 2026), Ok(2076));
/// assert_eq!(year(b"Saturday, 01-Jan-77 00:00:00 GMT", 2026), Ok(1977));
/// // In 2027 the digits 77 mean 2077, in which that day is a Friday.
/// assert_eq!(year(b"Saturday, 01-Jan-77 00:00:00 GMT", 2027), Err(Refusal::WrongDayName { place: 0 }));
/// assert_eq!(year(b"Friday, 01-Jan-77 00:00:00 GMT", 2027), Ok(2077));
///
/// assert_eq!(year(b"Sun, 06 Nov 1994 08:49:37 GMT", 1631), Err(Refusal::OutOfRange { place: 0 }));
/// assert_eq!(year(b"Sun, 06 Nov 1994 08:49:37 GMT", 9950), Err(Refusal::OutOfRange { place: 0 }));
/// ```
pub fn date_read(value: &[u8], present_year: u32) -> Result<Date, Refusal> {
    // SAFETY: the pointer is valid for reads of the length.
    let d = unsafe { raw::qz_date_read(value.as_ptr(), value.len(), present_year) };
    let raw::QzDate { number, place, seconds, year, month, day, hour, minute, second } = d;
    unless_refused(number, place, Date { year, month, day, hour, minute, second, seconds })
}

/// Reads a date as [`date_read`] does, with the year of `now` in GMT as the present one.
///
/// A time whose year is not one of 1632 to 9949 is [`Refusal::OutOfRange`].
///
/// ```
/// use quizotepec::{date_read_at, Refusal};
/// use std::time::{Duration, UNIX_EPOCH};
/// // The last second of 2026, and the first of 2027.
/// let new_year = UNIX_EPOCH + Duration::from_secs(1_798_761_600);
/// let year = |value: &[u8], now| date_read_at(value, now).map(|date| date.year);
/// assert_eq!(year(b"Saturday, 01-Jan-77 00:00:00 GMT", new_year - Duration::from_secs(1)), Ok(1977));
/// assert_eq!(year(b"Friday, 01-Jan-77 00:00:00 GMT", new_year), Ok(2077));
///
/// // The first second of 9950.
/// let late = UNIX_EPOCH + Duration::from_secs(251_824_464_000);
/// assert_eq!(year(b"Sun, 06 Nov 1994 08:49:37 GMT", late), Err(Refusal::OutOfRange { place: 0 }));
/// ```
pub fn date_read_at(value: &[u8], now: SystemTime) -> Result<Date, Refusal> {
    date_read(value, year_of(now)?)
}

/// Reads a date as [`date_read_at`] does, at the time of the system's clock.
///
/// Prefer [`date_read`] with a year of your own, or [`date_read_at`] with a time of your own,
/// - in a cache that replays what it recorded: two digits mean what they meant at the time of the recording;
/// - in a test, whose answers must not change with the year;
/// - where the clock may not be set: in 1970 two digits mean 1921 to 2020, so that `77` is 1977, but `21` is 1921. A
///   date of 2021 is then refused, since the name of its day is wrong in 1921.
///
/// ```
/// use quizotepec::{date_read_at, date_read_now, Refusal};
/// use std::time::UNIX_EPOCH;
/// // Four digits mean the same by any clock from 1632 to 9949.
/// assert_eq!(date_read_now(b"Sun, 06 Nov 1994 08:49:37 GMT").unwrap().year, 1994);
///
/// // By a clock that stands at 1970:
/// let year = |value: &[u8]| date_read_at(value, UNIX_EPOCH).map(|date| date.year);
/// assert_eq!(year(b"Saturday, 01-Jan-77 00:00:00 GMT"), Ok(1977));
/// assert_eq!(year(b"Wednesday, 01-Jan-20 00:00:00 GMT"), Ok(2020));
/// assert_eq!(year(b"Saturday, 01-Jan-21 00:00:00 GMT"), Ok(1921));
/// // It was a Friday in 2021.
/// assert_eq!(year(b"Friday, 01-Jan-21 00:00:00 GMT"), Err(Refusal::WrongDayName { place: 0 }));
/// ```
pub fn date_read_now(value: &[u8]) -> Result<Date, Refusal> {
    date_read_at(value, SystemTime::now())
}

/// The year of a time: the library writes the time and reads it back. What it writes has four digits of the year, so
/// that any present year will do.
fn year_of(time: SystemTime) -> Result<u32, Refusal> {
    let mut text = [0; LENGTH];
    date_write_time(time, &mut text)?;
    date_read(&text, FIRST_PRESENT_YEAR).map(|date| date.year)
}

/// Writes the 29 bytes of an instant's RFC 1123 form and gives their number.
///
/// ```
/// use quizotepec::{date_write, Refusal};
/// let mut out = [b'.'; 30];
/// assert_eq!(date_write(-1, &mut out), Ok(29));
/// assert_eq!(&out, b"Wed, 31 Dec 1969 23:59:59 GMT.");
/// // The years are 1583 to 9999.
/// assert_eq!(date_write(253_402_300_800, &mut out), Err(Refusal::OutOfRange { place: 0 }));
/// assert_eq!(date_write(-1, &mut out[..28]), Err(Refusal::OutputTooShort { place: 0 }));
/// ```
pub fn date_write(seconds: i64, out: &mut [u8]) -> Result<usize, Refusal> {
    // SAFETY: the output is borrowed alone and valid for writes of its length.
    written(unsafe { raw::qz_date_write(seconds, out.as_mut_ptr(), out.len()) })
}

/// Writes a [`SystemTime`] as [`date_write`] does, rounded down to whole seconds, before 1970 too.
///
/// ```
/// use std::time::{Duration, UNIX_EPOCH};
/// let mut out = [0; 29];
/// let time = UNIX_EPOCH - Duration::from_nanos(1);
/// assert_eq!(quizotepec::date_write_time(time, &mut out), Ok(29));
/// assert_eq!(&out, b"Wed, 31 Dec 1969 23:59:59 GMT");
/// ```
pub fn date_write_time(time: SystemTime, out: &mut [u8]) -> Result<usize, Refusal> {
    date_write(whole_seconds(time), out)
}

/// Since 1970, rounded down. What an `i64` cannot hold stays on its side, far outside the range of dates.
fn whole_seconds(time: SystemTime) -> i64 {
    match time.duration_since(UNIX_EPOCH) {
        Ok(after) => i64::try_from(after.as_secs()).unwrap_or(i64::MAX),
        Err(error) => {
            let before = error.duration();
            let whole = i64::try_from(before.as_secs()).unwrap_or(i64::MAX);
            // A part of a second counts as one; `-whole` is above the least number.
            -whole - i64::from(before.subsec_nanos() > 0)
        }
    }
}
