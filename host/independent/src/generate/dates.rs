//! Dates, the present years that go with them, and instants for the writer.

use super::Rng;
use crate::date::{
    self, Date, FIRST_PRESENT_YEAR, FIRST_YEAR, LAST_PRESENT_YEAR, LAST_YEAR, OLD_RESULTS_YEAR,
};
use crate::date::{DAY_NAMES, DAY_SECONDS, EARLIEST, LATEST, MONTH_NAMES, YEARS_AHEAD, YEARS_BACK};

/// The ends of the range, of years and of leap days, and the instants next to 1970.
const NOTABLE_INSTANTS: [i64; 7] = [EARLIEST, LATEST, -1, 0, 951_782_400, 4_107_542_399, 946_684_799];

/// An instant for the writer of dates; a few are just outside the range.
pub fn instant(rng: &mut Rng) -> i64 {
    match rng.below(16) {
        0 => EARLIEST - 1 - rng.below(2) as i64,
        1 => LATEST + 1 + rng.below(2) as i64,
        _ => inside(rng),
    }
}

fn inside(rng: &mut Rng) -> i64 {
    let span = (LATEST - EARLIEST + 1) as u64;
    match rng.below(4) {
        0 => EARLIEST + (rng.word() % span) as i64,
        1 => rng.pick(&NOTABLE_INSTANTS),
        // With the present year 2019 two-digit years reach from 1970 to 2069.
        _ => (rng.word() % 3_155_760_000) as i64,
    }
}

/// A date in any form, for the present year 2019.
pub(super) fn date(rng: &mut Rng) -> Vec<u8> {
    let Some(fields) = date::at(inside(rng)) else { return Vec::new() };
    let forms = changed_forms(fields, rng);
    forms[rng.below(forms.len())].clone().into_bytes()
}

/// The forms of a date; at times one of its fields or the name of the day is another.
fn changed_forms(mut fields: Date, rng: &mut Rng) -> [String; 4] {
    let mut name = date::day_of_week(fields.seconds);
    match rng.below(16) {
        0 => fields.day = rng.below(40) as u8,
        1 => fields.month = 1 + rng.below(12) as u8,
        2 => name = rng.below(7),
        3 => fields.hour = rng.below(30) as u8,
        4 => (fields.minute, fields.second) = (rng.below(65) as u8, rng.below(65) as u8),
        5 if rng.once_in(3) => fields.year = rng.below(10_000) as u16,
        _ => {}
    }
    date_forms(fields, DAY_NAMES[name])
}

/// The three forms, asctime's with either spelling of the day.
pub(super) fn date_forms(fields: Date, name: &str) -> [String; 4] {
    let Date { year, month, day, hour, minute, second, .. } = fields;
    let month = MONTH_NAMES[usize::from(month) - 1];
    let time = format!("{hour:02}:{minute:02}:{second:02}");
    let short = &name[..3];
    [
        format!("{short}, {day:02} {month} {year:04} {time} GMT"),
        format!("{name}, {day:02}-{month}-{:02} {time} GMT", year % 100),
        format!("{short} {month} {day:2} {time} {year:04}"),
        format!("{short} {month} {day:02} {time} {year:04}"),
    ]
}

/// The ends of the range, the year of the old results, a recent one, and the first with which `00` is 2000 and
/// 2100.
const NOTABLE_YEARS: [u32; 6] = [FIRST_PRESENT_YEAR, LAST_PRESENT_YEAR, OLD_RESULTS_YEAR, 2026, 1950, 2050];
/// Zero, two digits alone, the first and the last year of dates, one that is 2019 in 16 bits, and large ones.
const FAR_YEARS: [u32; 7] = [0, 19, 1583, 9999, OLD_RESULTS_YEAR + (1 << 16), 1 << 31, u32::MAX];

/// Present years near the notable ones, so on both sides of each end of their range, and far outside it.
pub fn present_years() -> Vec<u32> {
    let near = NOTABLE_YEARS.into_iter().flat_map(|year| year - 2..=year + 2);
    near.chain(FAR_YEARS).collect()
}

/// Any year of the range, or one of those above.
pub fn present_year(rng: &mut Rng) -> u32 {
    if rng.once_in(2) {
        return rng.pick(&present_years());
    }
    FIRST_PRESENT_YEAR + rng.below((LAST_PRESENT_YEAR - FIRST_PRESENT_YEAR + 1) as usize) as u32
}

/// A year that is chosen with this present year; often near an end of the window, or the one that ends in `00`.
/// If the present year is out of its range, that of the nearest one.
fn window_year(present_year: u32, rng: &mut Rng) -> i64 {
    let present = present_year.clamp(FIRST_PRESENT_YEAR, LAST_PRESENT_YEAR);
    let (first, last) = (present - YEARS_BACK, present + YEARS_AHEAD);
    let year = match rng.below(8) {
        0 => first + rng.below(2) as u32,
        1 => last - rng.below(2) as u32,
        2 => first.next_multiple_of(100),
        _ => first + rng.below(100) as u32,
    };
    i64::from(year)
}

/// Month and day; at times 29 February, leap year or not.
fn day_of(year: i64, rng: &mut Rng) -> (usize, i64) {
    let month = 1 + rng.below(12);
    match rng.below(8) {
        0 => (2, 29),
        1 => rng.pick(&[(1, 1), (2, 28), (3, 1), (12, 31)]),
        _ => (month, 1 + rng.below(date::month_length(year, month) as usize) as i64),
    }
}

/// A well-formed date in the RFC 850 form, whose name of the day mostly fits the year that is chosen with this
/// present year. At times it fits the century before or after, or none of them; some days and times do not exist.
pub fn rfc850_date(present_year: u32, rng: &mut Rng) -> Vec<u8> {
    let chosen = window_year(present_year, rng);
    let beside = if rng.once_in(8) { rng.pick(&[-100, 100]) } else { 0 };
    let year = (chosen + beside).clamp(FIRST_YEAR, LAST_YEAR);
    let (month, day) = day_of(year, rng);
    let fields = Date {
        year: year as u16,
        month: month as u8,
        day: day as u8,
        hour: rng.below(24) as u8,
        minute: rng.below(60) as u8,
        second: rng.below(60) as u8,
        seconds: date::day_number(year, month, day) * DAY_SECONDS,
    };
    let [_, rfc850, ..] = changed_forms(fields, rng);
    rfc850.into_bytes()
}

/// Every two-digit year on a few days, under every name of a day: for any present year just one name fits each
/// day that exists.
pub fn two_digit_years() -> Vec<Vec<u8>> {
    let days = ["01-Jan", "28-Feb", "29-Feb", "31-Dec"];
    let dates = (0..100).flat_map(|year| days.map(|day| format!("{day}-{year:02}")));
    let named = dates.flat_map(|date| DAY_NAMES.map(|name| format!("{name}, {date} 08:49:37 GMT")));
    named.map(String::into_bytes).collect()
}
