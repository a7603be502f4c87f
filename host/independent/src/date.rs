//! Dates in three forms (RFC 2616 3.3.1); their two-digit years follow the clock by request (ii).

use crate::grammar::{part, repeat, Grammar, Name, Parsed};
use crate::number::{NO_SUCH_DATE, WRONG_DAY_NAME};
use crate::rules::{digit, number_of};
use crate::{fit, no_limits, read_header, Refusal, Span, OUT_OF_RANGE};
use std::sync::OnceLock;
use Grammar::{Exact, OneOf, Seq};

pub const EARLIEST: i64 = -12_212_553_600;
pub const LATEST: i64 = 253_402_300_799;
/// The length of the RFC 1123 form.
pub const LENGTH: usize = 29;

/// "Y is 1632 to 9949": then each year that can be chosen is one of 1583 to 9999.
pub const FIRST_PRESENT_YEAR: u32 = 1632;
pub const LAST_PRESENT_YEAR: u32 = 9949;
/// "With 2019 the old results return."
pub const OLD_RESULTS_YEAR: u32 = 2019;
pub(crate) const YEARS_BACK: u32 = 49;
pub(crate) const YEARS_AHEAD: u32 = 50;

pub(crate) const FIRST_YEAR: i64 = 1583;
pub(crate) const LAST_YEAR: i64 = 9999;
const EPOCH_YEAR: i64 = 1970;
/// 1970-01-01 was a Thursday; days of the week count from Monday.
const EPOCH_DAY_OF_WEEK: i64 = 3;
const WEEK: i64 = 7;
pub(crate) const DAY_SECONDS: i64 = 86_400;
const HOUR_SECONDS: i64 = 3_600;
const MINUTE_SECONDS: i64 = 60;
const LAST_HOUR: u64 = 23;
const LAST_MINUTE_OR_SECOND: u64 = 59;

pub const DAY_NAMES: [&str; 7] =
    ["Monday", "Tuesday", "Wednesday", "Thursday", "Friday", "Saturday", "Sunday"];
const SHORT_DAY_NAMES: [&str; 7] = ["Mon", "Tue", "Wed", "Thu", "Fri", "Sat", "Sun"];
pub const MONTH_NAMES: [&str; 12] =
    ["Jan", "Feb", "Mar", "Apr", "May", "Jun", "Jul", "Aug", "Sep", "Oct", "Nov", "Dec"];

const DAY_NAME: Name = "day name";
const DAY: Name = "day";
const MONTH: Name = "month";
const YEAR: Name = "year";
const HOUR: Name = "hour";
const MINUTE: Name = "minute";
const SECOND: Name = "second";

#[derive(Clone, Copy, Debug, PartialEq, Eq, Hash)]
pub struct Date {
    pub year: u16,
    /// From 1.
    pub month: u8,
    pub day: u8,
    pub hour: u8,
    pub minute: u8,
    pub second: u8,
    /// Since 1970-01-01 00:00:00.
    pub seconds: i64,
}

pub fn grammar() -> &'static Grammar {
    static GRAMMAR: OnceLock<Grammar> = OnceLock::new();
    GRAMMAR.get_or_init(|| OneOf(vec![rfc1123(), rfc850(), asctime()]))
}

fn name_of(name: Name, names: &[&'static str]) -> Grammar {
    part(name, OneOf(names.iter().map(|text| Exact(text)).collect()))
}

fn number_part(name: Name, count: usize) -> Grammar {
    part(name, repeat(count, count, digit()))
}

fn time() -> Grammar {
    let (hour, minute, second) = (number_part(HOUR, 2), number_part(MINUTE, 2), number_part(SECOND, 2));
    Seq(vec![hour, Exact(":"), minute, Exact(":"), second])
}

fn month() -> Grammar {
    name_of(MONTH, &MONTH_NAMES)
}

fn rfc1123() -> Grammar {
    let date = vec![number_part(DAY, 2), Exact(" "), month(), Exact(" "), number_part(YEAR, 4)];
    let name = name_of(DAY_NAME, &SHORT_DAY_NAMES);
    Seq(vec![name, Exact(", "), Seq(date), Exact(" "), time(), Exact(" GMT")])
}

fn rfc850() -> Grammar {
    let date = vec![number_part(DAY, 2), Exact("-"), month(), Exact("-"), number_part(YEAR, 2)];
    let name = name_of(DAY_NAME, &DAY_NAMES);
    Seq(vec![name, Exact(", "), Seq(date), Exact(" "), time(), Exact(" GMT")])
}

fn asctime() -> Grammar {
    let padded = Seq(vec![Exact(" "), number_part(DAY, 1)]);
    let date = vec![month(), Exact(" "), OneOf(vec![number_part(DAY, 2), padded])];
    let name = name_of(DAY_NAME, &SHORT_DAY_NAMES);
    Seq(vec![name, Exact(" "), Seq(date), Exact(" "), time(), Exact(" "), number_part(YEAR, 4)])
}

pub fn is_leap(year: i64) -> bool {
    year % 4 == 0 && (year % 100 != 0 || year % 400 == 0)
}

/// `month` from 1.
pub fn month_length(year: i64, month: usize) -> i64 {
    match month {
        2 if is_leap(year) => 29,
        2 => 28,
        4 | 6 | 9 | 11 => 30,
        _ => 31,
    }
}

/// The first day of each year from 1583 to 10000, counted from 1970-01-01.
fn year_starts() -> &'static [i64] {
    static STARTS: OnceLock<Vec<i64>> = OnceLock::new();
    STARTS.get_or_init(|| {
        let length = |year| (1..=12).map(|month| month_length(year, month)).sum::<i64>();
        let before_epoch: i64 = (FIRST_YEAR..EPOCH_YEAR).map(length).sum();
        let mut starts = vec![-before_epoch];
        for year in FIRST_YEAR..=LAST_YEAR {
            starts.push(starts[starts.len() - 1] + length(year));
        }
        starts
    })
}

pub(crate) fn day_number(year: i64, month: usize, day: i64) -> i64 {
    let before: i64 = (1..month).map(|month| month_length(year, month)).sum();
    year_starts()[(year - FIRST_YEAR) as usize] + before + day - 1
}

/// From Monday, which is 0.
pub fn day_of_week(seconds: i64) -> usize {
    (seconds.div_euclid(DAY_SECONDS) + EPOCH_DAY_OF_WEEK).rem_euclid(WEEK) as usize
}

/// "the year from Y-49 to Y+50 with those digits": of a hundred years in a row, just one ends in them.
fn chosen_year(digits: &[u8], present_year: u32) -> Option<i64> {
    let mut window = present_year - YEARS_BACK..=present_year + YEARS_AHEAD;
    window.find(|year| year.to_string().as_bytes().ends_with(digits)).map(i64::from)
}

fn year_of(parsed: &Parsed, input: &[u8], present_year: u32) -> Option<i64> {
    let span = parsed.first(YEAR)?;
    match span.length {
        2 => chosen_year(span.of(input), present_year),
        _ => Some(number_of(input, span) as i64),
    }
}

/// The fields, if there is such a date and time.
fn fields(parsed: &Parsed, input: &[u8], present_year: u32) -> Option<Date> {
    let span = |name| parsed.first(name).unwrap_or_default();
    let number = |name| number_of(input, span(name));
    let year = year_of(parsed, input, present_year)?;
    let name: Span = span(MONTH);
    let month = 1 + MONTH_NAMES.iter().position(|text| text.as_bytes() == name.of(input))?;
    let (day, hour, minute, second) = (number(DAY) as i64, number(HOUR), number(MINUTE), number(SECOND));
    let exists = hour <= LAST_HOUR
        && minute <= LAST_MINUTE_OR_SECOND
        && second <= LAST_MINUTE_OR_SECOND
        && (FIRST_YEAR..=LAST_YEAR).contains(&year)
        && (1..=month_length(year, month)).contains(&day);
    let in_day = || hour as i64 * HOUR_SECONDS + minute as i64 * MINUTE_SECONDS + second as i64;
    exists.then(|| Date {
        year: year as u16,
        month: month as u8,
        day: day as u8,
        hour: hour as u8,
        minute: minute as u8,
        second: second as u8,
        seconds: day_number(year, month, day) * DAY_SECONDS + in_day(),
    })
}

/// A present year out of its range is refusal 9 "before anything is read".
pub fn read(input: &[u8], present_year: u32) -> Result<Date, Refusal> {
    if !(FIRST_PRESENT_YEAR..=LAST_PRESENT_YEAR).contains(&present_year) {
        return Err(OUT_OF_RANGE);
    }
    let parsed = read_header(grammar(), input, no_limits)?;
    let date = fields(&parsed, input, present_year).ok_or(Refusal::new(NO_SUCH_DATE, 0))?;
    let sent = parsed.first(DAY_NAME).unwrap_or_default().of(input);
    let day = day_of_week(date.seconds);
    if sent != SHORT_DAY_NAMES[day].as_bytes() && sent != DAY_NAMES[day].as_bytes() {
        return Err(Refusal::new(WRONG_DAY_NAME, 0));
    }
    Ok(date)
}

/// The fields of an instant inside the range.
pub fn at(seconds: i64) -> Option<Date> {
    if !(EARLIEST..=LATEST).contains(&seconds) {
        return None;
    }
    let (days, in_day) = (seconds.div_euclid(DAY_SECONDS), seconds.rem_euclid(DAY_SECONDS));
    let index = year_starts().partition_point(|start| *start <= days) - 1;
    let year = FIRST_YEAR + index as i64;
    let (mut month, mut left) = (1, days - year_starts()[index]);
    while left >= month_length(year, month) {
        left -= month_length(year, month);
        month += 1;
    }
    Some(Date {
        year: year as u16,
        month: month as u8,
        day: left as u8 + 1,
        hour: (in_day / HOUR_SECONDS) as u8,
        minute: (in_day % HOUR_SECONDS / MINUTE_SECONDS) as u8,
        second: (in_day % MINUTE_SECONDS) as u8,
        seconds,
    })
}

/// The RFC 1123 form.
pub fn write(seconds: i64, out_len: usize) -> Result<Vec<u8>, Refusal> {
    let Date { year, month, day, hour, minute, second, .. } = at(seconds).ok_or(OUT_OF_RANGE)?;
    let name = SHORT_DAY_NAMES[day_of_week(seconds)];
    let month = MONTH_NAMES[usize::from(month) - 1];
    let text = format!("{name}, {day:02} {month} {year:04} {hour:02}:{minute:02}:{second:02} GMT");
    fit(text.into_bytes(), out_len)
}
