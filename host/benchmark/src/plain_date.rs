//! Dates read in one pass, for speed: the baseline of their benchmark.

use independent::date::{is_leap, FIRST_PRESENT_YEAR, LAST_PRESENT_YEAR};
use independent::HEADER_LIMIT;
use quizotepec::{Date, Refusal};

const DAYS: [[u8; 3]; 7] = [*b"Mon", *b"Tue", *b"Wed", *b"Thu", *b"Fri", *b"Sat", *b"Sun"];
/// What the long name of each day has behind the short one.
const LONG: [&[u8]; 7] = [b"day", b"sday", b"nesday", b"rsday", b"day", b"urday", b"day"];
const MONTHS: [[u8; 3]; 12] = [
    *b"Jan", *b"Feb", *b"Mar", *b"Apr", *b"May", *b"Jun", *b"Jul", *b"Aug", *b"Sep", *b"Oct", *b"Nov",
    *b"Dec",
];
/// The days of a year before each month, but for a leap day.
const DAYS_BEFORE: [u32; 12] = [0, 31, 59, 90, 120, 151, 181, 212, 243, 273, 304, 334];
/// 1970-01-01, counted in days from 0001-01-01, which is a Monday.
const EPOCH: u32 = 719_162;
const DAY_SECONDS: i64 = 86_400;

/// Reads a date from its front.
struct Reader<'a> {
    input: &'a [u8],
    at: usize,
}

impl Reader<'_> {
    #[inline]
    fn peek(&self) -> Option<u8> {
        self.input.get(self.at).copied()
    }

    /// Refusal 1 at the first byte with which none of the texts goes on.
    #[cold]
    fn leaves<'t>(&self, texts: impl Iterator<Item = &'t [u8]>) -> Refusal {
        let rest = &self.input[self.at..];
        let same = |text: &[u8]| rest.iter().zip(text).take_while(|(byte, want)| byte == want).count();
        Refusal::Malformed { place: self.at + texts.map(same).max().unwrap_or(0) }
    }

    #[inline]
    fn text(&mut self, text: &[u8]) -> Result<(), Refusal> {
        if !self.input[self.at..].starts_with(text) {
            return Err(self.leaves([text].into_iter()));
        }
        self.at += text.len();
        Ok(())
    }

    #[inline]
    fn number(&mut self, digits: usize) -> Result<u32, Refusal> {
        let mut value = 0;
        for _ in 0..digits {
            let Some(digit @ b'0'..=b'9') = self.peek() else {
                return Err(Refusal::Malformed { place: self.at });
            };
            value = value * 10 + u32::from(digit - b'0');
            self.at += 1;
        }
        Ok(value)
    }

    /// Which of the names stands here, counted from 0.
    #[inline]
    fn name(&mut self, names: &[[u8; 3]]) -> Result<usize, Refusal> {
        let found =
            self.input[self.at..].first_chunk().and_then(|here| names.iter().position(|name| name == here));
        let Some(which) = found else {
            return Err(self.leaves(names.iter().map(|name| &name[..])));
        };
        self.at += 3;
        Ok(which)
    }

    #[inline]
    fn month(&mut self) -> Result<u32, Refusal> {
        Ok(self.name(&MONTHS)? as u32 + 1)
    }

    #[inline]
    fn time(&mut self) -> Result<[u32; 3], Refusal> {
        let hour = self.number(2)?;
        self.text(b":")?;
        let minute = self.number(2)?;
        self.text(b":")?;
        Ok([hour, minute, self.number(2)?])
    }

    /// `, 06 Nov 1994 08:49:37 GMT`
    #[inline]
    fn rfc1123(&mut self) -> Result<Date, Refusal> {
        self.text(b", ")?;
        let day = self.number(2)?;
        self.text(b" ")?;
        let month = self.month()?;
        self.text(b" ")?;
        let year = self.number(4)?;
        self.text(b" ")?;
        let time = self.time()?;
        self.text(b" GMT")?;
        Ok(fields([year, month, day], time))
    }

    /// `, 06-Nov-94 08:49:37 GMT`
    #[inline]
    fn rfc850(&mut self, present_year: u32) -> Result<Date, Refusal> {
        self.text(b", ")?;
        let day = self.number(2)?;
        self.text(b"-")?;
        let month = self.month()?;
        self.text(b"-")?;
        let year = full_year(self.number(2)?, present_year);
        self.text(b" ")?;
        let time = self.time()?;
        self.text(b" GMT")?;
        Ok(fields([year, month, day], time))
    }

    /// ` Nov  6 08:49:37 1994`
    #[inline]
    fn asctime(&mut self) -> Result<Date, Refusal> {
        self.text(b" ")?;
        let month = self.month()?;
        self.text(b" ")?;
        let day = if self.peek() == Some(b' ') {
            self.at += 1;
            self.number(1)?
        } else {
            self.number(2)?
        };
        self.text(b" ")?;
        let time = self.time()?;
        self.text(b" ")?;
        Ok(fields([self.number(4)?, month, day], time))
    }

    /// What follows the short name of a day, to the end.
    #[inline]
    fn form(&mut self, day_name: usize, present_year: u32) -> Result<Date, Refusal> {
        let date = match self.peek() {
            Some(b',') => self.rfc1123()?,
            Some(b' ') => self.asctime()?,
            _ => {
                self.text(LONG[day_name])?;
                self.rfc850(present_year)?
            }
        };
        if self.at < self.input.len() {
            return Err(Refusal::Malformed { place: self.at });
        }
        Ok(date)
    }
}

/// The year with those digits from 49 years before the present one to 50 years after it.
#[inline]
fn full_year(digits: u32, present_year: u32) -> u32 {
    let first = present_year - 49;
    first + (digits + 100 - first % 100) % 100
}

/// A date whose seconds are not known yet.
#[inline]
fn fields([year, month, day]: [u32; 3], [hour, minute, second]: [u32; 3]) -> Date {
    Date { year, month, day, hour, minute, second, seconds: 0 }
}

#[inline]
fn month_length(year: u32, month: u32) -> u32 {
    match month {
        2 => 28 + u32::from(is_leap(year.into())),
        4 | 6 | 9 | 11 => 30,
        _ => 31,
    }
}

/// Counted from 0001-01-01.
#[inline]
fn day_number(date: &Date) -> u32 {
    let years = date.year - 1;
    let leap_days =
        years / 4 - years / 100 + years / 400 + u32::from(date.month > 2 && is_leap(date.year.into()));
    years * 365 + leap_days + DAYS_BEFORE[date.month as usize - 1] + date.day - 1
}

/// With its seconds, if there is such a date and it has that day name.
#[inline]
fn judged(date: Date, day_name: usize) -> Result<Date, Refusal> {
    let exists = date.hour < 24
        && date.minute < 60
        && date.second < 60
        && (1583..=9999).contains(&date.year)
        && (1..=month_length(date.year, date.month)).contains(&date.day);
    if !exists {
        return Err(Refusal::NoSuchDate { place: 0 });
    }
    let days = day_number(&date);
    if days % 7 != day_name as u32 {
        return Err(Refusal::WrongDayName { place: 0 });
    }
    let time = i64::from(date.hour * 3_600 + date.minute * 60 + date.second);
    Ok(Date { seconds: (i64::from(days) - i64::from(EPOCH)) * DAY_SECONDS + time, ..date })
}

/// Its answers are those of `quizotepec::date_read`.
pub fn read(input: &[u8], present_year: u32) -> Result<Date, Refusal> {
    if !(FIRST_PRESENT_YEAR..=LAST_PRESENT_YEAR).contains(&present_year) {
        return Err(Refusal::OutOfRange { place: 0 });
    }
    if input.len() > HEADER_LIMIT {
        return Err(Refusal::ValueTooLong { place: HEADER_LIMIT });
    }
    let mut reader = Reader { input, at: 0 };
    let day_name = reader.name(&DAYS)?;
    let date = reader.form(day_name, present_year)?;
    judged(date, day_name)
}

#[cfg(test)]
mod tests {
    use super::*;
    use independent::generate::{
        any, at_limits, every, present_year, present_years, rfc850_date, short, Kind, Rng,
    };
    use quizotepec::date_read;

    const ROUNDS: usize = 20_000;

    fn agree(input: &[u8], present_year: u32) {
        assert_eq!(read(input, present_year), date_read(input, present_year), "{input:?} in {present_year}");
    }

    #[test]
    fn random_dates() {
        let mut rng = Rng::new(1);
        for _ in 0..ROUNDS {
            let year = present_year(&mut rng);
            agree(&any(Kind::Date, &mut rng), year);
            agree(&rfc850_date(year, &mut rng), year);
        }
    }

    #[test]
    fn dates_at_limits() {
        for year in present_years() {
            at_limits(Kind::Date).iter().for_each(|input| agree(input, year));
        }
    }

    #[test]
    fn short_dates() {
        let mut rng = Rng::new(2);
        let inputs = short(Kind::Date).iter().flat_map(|family| every(*family));
        inputs.for_each(|input| agree(&input, present_year(&mut rng)));
    }
}
