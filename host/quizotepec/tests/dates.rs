//! Dates against the independent implementation, under many present years.

mod common;

use common::{at, changes, date_of, raw, refusal, unused, RANDOM};
use independent::date::{is_leap, DAY_NAMES, OLD_RESULTS_YEAR};
use independent::generate::{
    any, at_limits, damage, every, present_year, present_years, rfc850_date, short, two_digit_years, valid,
    Kind, Rng,
};
use quizotepec::{date_read, Refusal, FIRST_PRESENT_YEAR, LAST_PRESENT_YEAR};
use std::ops::RangeInclusive;
use std::thread;

/// How many present years are drawn for an input, beside 2019.
const DRAWN: usize = 2;
/// How many well-formed dates are cut at every place.
const CUT: usize = 5_000;
/// How many threads the test of every present year has.
const THREADS: u32 = 4;
/// The days of the week, and their names, repeat after so many years.
const CYCLE: u32 = 400;

/// Holds both readers to one input in one present year.
fn agree_in(present_year: u32, input: &[u8]) {
    let expected = independent::date::read(input, present_year).map(date_of).map_err(refusal);
    assert_eq!(date_read(input, present_year), expected, "{input:?} in {present_year}");
    // SAFETY: the pointer and the length are those of a slice.
    let d = unsafe { raw::qz_date_read(input.as_ptr(), input.len(), present_year) };
    let fields = [d.year, d.month, d.day, d.hour, d.minute, d.second].map(u64::from);
    unused(input, d.number, d.place, &[&[d.seconds as u64], &fields[..]].concat());
}

/// In 2019, and in present years that are drawn with the input as the seed.
fn agree(input: &[u8]) {
    let seed = input.iter().fold(0_u64, |seed, byte| seed.wrapping_mul(257).wrapping_add(u64::from(*byte)));
    let mut rng = Rng::new(seed);
    agree_in(OLD_RESULTS_YEAR, input);
    (0..DRAWN).for_each(|_| agree_in(present_year(&mut rng), input));
}

#[test]
fn short_strings() {
    short(Kind::Date).iter().flat_map(|family| every(*family)).for_each(|input| agree(&input));
}

#[test]
fn every_byte_at_every_place() {
    for text in
        ["Sun, 06 Nov 1994 08:49:37 GMT", "Wednesday, 02-Jun-82 00:00:00 GMT", "Sun Nov  6 08:49:37 1994"]
    {
        changes(text).for_each(|input| agree(&input));
    }
}

#[test]
fn limits() {
    at_limits(Kind::Date).iter().for_each(|input| agree(input));
}

#[test]
fn every_cut() {
    let mut rng = Rng::new(11);
    for _ in 0..CUT {
        let input = valid(Kind::Date, &mut rng);
        (0..=input.len()).for_each(|end| agree(&input[..end]));
    }
}

#[test]
fn random_dates() {
    let mut rng = Rng::new(18);
    (0..RANDOM).for_each(|_| agree(&any(Kind::Date, &mut rng)));
}

/// Dates whose year has two digits; the name of the day mostly fits the year that the present one chooses.
#[test]
fn random_years_of_two_digits() {
    let mut rng = Rng::new(29);
    for _ in 0..RANDOM {
        let year = present_year(&mut rng);
        let input = rfc850_date(year, &mut rng);
        agree_in(year, &input);
        agree_in(present_year(&mut rng), &input);
        agree_in(year, &damage(input, &mut rng));
    }
}

/// Every two digits on a few days under every name of a day, in the notable present years.
#[test]
fn every_day_name_in_notable_years() {
    let inputs = two_digit_years();
    for year in present_years() {
        inputs.iter().for_each(|input| agree_in(year, input));
    }
}

/// The names of the first of March in each year of a cycle, counted from Monday: that day's name also tells a leap
/// year from another.
fn march_names() -> Vec<usize> {
    // 2000 begins a cycle, and its first of March was a Wednesday.
    let mut names = vec![2];
    for year in 2001..=2000 + CYCLE {
        let days = 365 + usize::from(is_leap(year.into()));
        names.push((names[names.len() - 1] + days) % 7);
    }
    assert_eq!(names.pop(), Some(2), "the next cycle begins as this one");
    names
}

/// The first of March of the years that end in these digits, under every name.
fn named(digits: u32) -> [Vec<u8>; 7] {
    DAY_NAMES.map(|name| format!("{name}, 01-Mar-{digits:02} 12:34:56 GMT").into_bytes())
}

/// Both readers give this year, or this refusal.
fn both_give(answer: Result<u32, Refusal>, input: &[u8], present_year: u32) {
    let ours = date_read(input, present_year);
    assert_eq!(ours.map(|date| date.year), answer, "{input:?} in {present_year}");
    let theirs = independent::date::read(input, present_year).map(date_of).map_err(refusal);
    assert_eq!(ours, theirs, "{input:?} in {present_year}");
}

/// The window of each present year: "the year from Y-49 to Y+50 with those digits". The name of the day is that
/// of the year; then the one of a century later or earlier, as a window too late or too early would choose. It gives
/// how many years there were.
fn whole_windows(present_years: RangeInclusive<u32>) -> usize {
    let names = march_names();
    let name_of = |year: u32| names[(year % CYCLE) as usize];
    let texts: Vec<_> = (0..100).map(named).collect();
    let pairs =
        present_years.flat_map(|present| (present - 49..=present + 50).map(move |year| (present, year)));
    let mut count = 0;
    for (present, year) in pairs {
        let texts = &texts[(year % 100) as usize];
        let other = if year < present { year + 100 } else { year - 100 };
        both_give(Ok(year), &texts[name_of(year)], present);
        both_give(Err(at(4, 0)), &texts[name_of(other)], present);
        count += 1;
    }
    count
}

/// Every present year with every two digits: 8,318 times 100.
#[test]
fn every_present_year() {
    let share = (LAST_PRESENT_YEAR - FIRST_PRESENT_YEAR) / THREADS + 1;
    let part = |first: u32| first..=LAST_PRESENT_YEAR.min(first + share - 1);
    let count: usize = thread::scope(|scope| {
        let firsts = (FIRST_PRESENT_YEAR..=LAST_PRESENT_YEAR).step_by(share as usize);
        let threads: Vec<_> = firsts.map(|first| scope.spawn(move || whole_windows(part(first)))).collect();
        threads.into_iter().map(|thread| thread.join().expect("both readers agree")).sum()
    });
    assert_eq!(count, 831_800);
}

/// Refusal 9 "before anything is read": bytes that are too many, malformed ones, all three forms.
#[test]
fn present_years_outside() {
    let mut rng = Rng::new(30);
    let long = [8_192, 8_193, 9_000].map(|length| vec![b'S'; length]);
    let texts = [
        "Sun, 06 Nov 1994 08:49:37 GMT",
        "Sunday, 06-Nov-94 08:49:37 GMT",
        "Sun Nov  6 08:49:37 1994",
        "Mon, 31 Feb 1994 08:49:37 GMT",
        "Sunday, 06-Nov-9",
        "Sum",
        "",
    ];
    let random: Vec<_> = (0..1_000).map(|_| any(Kind::Date, &mut rng)).collect();
    let inputs =
        || texts.iter().map(|text| text.as_bytes()).chain(long.iter().chain(&random).map(|input| &input[..]));
    for year in [0, FIRST_PRESENT_YEAR - 1, LAST_PRESENT_YEAR + 1, u32::MAX] {
        inputs().for_each(|input| both_give(Err(at(9, 0)), input, year));
    }
    for year in [FIRST_PRESENT_YEAR, LAST_PRESENT_YEAR] {
        inputs().for_each(|input| agree_in(year, input));
    }
}
