//! Two-digit years and the present year (request ii), on both sides of each line.

use independent::date::{
    self, Date, DAY_NAMES, FIRST_PRESENT_YEAR, LAST_PRESENT_YEAR, LENGTH, OLD_RESULTS_YEAR,
};
use independent::generate::{any, at_limits, present_years, Kind, Rng};
use independent::{Refusal, HEADER_LIMIT};

const DAY: i64 = 86_400;
const ROUNDS: usize = 2_000;
/// Both ends of the range, and years on both sides of the turns of centuries between them.
const SAMPLE: [u32; 14] =
    [1632, 1633, 1650, 1750, 1850, 1949, 1950, 1994, 2019, 2026, 2049, 2050, 9948, 9949];
const OUTSIDE: [u32; 11] = [0, 19, 1583, 1630, 1631, 9950, 9951, 9999, 67_555, 1 << 31, u32::MAX];

fn read(text: &str, present_year: u32) -> Result<Date, Refusal> {
    date::read(text.as_bytes(), present_year)
}

fn year(text: &str, present_year: u32) -> Result<u16, Refusal> {
    read(text, present_year).map(|date| date.year)
}

fn refused(number: u8) -> Refusal {
    Refusal { number, place: 0 }
}

/// The start of a day in the RFC 850 form.
fn midnight(name: &str, day: &str) -> String {
    format!("{name}, {day} 00:00:00 GMT")
}

/// Under its own name the day is one of the chosen year; under the six others it is 4.
fn is_of(chosen: u16, right: &str, day: &str, present_year: u32) {
    for name in DAY_NAMES {
        let expected = if name == right { Ok(chosen) } else { Err(refused(4)) };
        assert_eq!(year(&midnight(name, day), present_year), expected, "{name}, {day} with {present_year}");
    }
}

/// 12 December of each year, with its name and the days since 1970-01-01. Of 1945, for one, it is 345 days after
/// 1 January, from which 25 years with 6 leap days lead to 1970: 345 - 25 * 365 - 6 = -8786.
const CHOSEN: [(u32, &str, u16, &str, i64); 10] = [
    (2026, "12-Dec-76", 2076, "Saturday", 39_062),
    (2026, "12-Dec-77", 1977, "Monday", 2_902),
    (1994, "12-Dec-44", 2044, "Monday", 27_374),
    (1994, "12-Dec-45", 1945, "Wednesday", -8_786),
    (2019, "12-Dec-69", 2069, "Thursday", 36_505),
    (2019, "12-Dec-70", 1970, "Saturday", 345),
    (1632, "12-Dec-82", 1682, "Saturday", -104_844),
    (1632, "12-Dec-83", 1583, "Monday", -141_004),
    (9949, "12-Dec-99", 9999, "Sunday", 2_932_877),
    (9949, "12-Dec-00", 9900, "Wednesday", 2_896_718),
];

#[test]
fn both_ends_of_the_window() {
    for (present, day, year, name, days) in CHOSEN {
        is_of(year, name, day, present);
        let date = Date { year, month: 12, day: 12, hour: 0, minute: 0, second: 0, seconds: days * DAY };
        assert_eq!(read(&midnight(name, day), present), Ok(date));
    }
}

#[test]
fn range_of_the_present_year() {
    assert_eq!((FIRST_PRESENT_YEAR, LAST_PRESENT_YEAR, OLD_RESULTS_YEAR), (1632, 9949, 2019));
}

/// The number and the place of the refusal.
fn refusal(text: &str, present_year: u32) -> Option<(u8, usize)> {
    read(text, present_year).err().map(|refusal| (refusal.number, refusal.place))
}

/// What 1632 and 9949 read, or refuse by 1, 3, 4 or 13, is 9 at place 0 with any year outside.
#[test]
fn present_years_out_of_range() {
    let long = " ".repeat(HEADER_LIMIT + 1);
    let (in_1682, in_9900) = (midnight("Saturday", "12-Dec-82"), midnight("Wednesday", "12-Dec-00"));
    for (text, first, last) in [
        ("Sun, 06 Nov 1994 08:49:37 GMT", None, None),
        ("Sun Nov  6 08:49:37 1994", None, None),
        (&in_1682, None, Some((4, 0))),
        (&in_9900, Some((4, 0)), None),
        ("Sun, 31 Nov 1994 08:49:37 GMT", Some((3, 0)), Some((3, 0))),
        ("Sunday, 31-Nov-94 08:49:37 GMT", Some((3, 0)), Some((3, 0))),
        ("Mon Nov  6 08:49:37 1994", Some((4, 0)), Some((4, 0))),
        ("", Some((1, 0)), Some((1, 0))),
        ("Sunday, 06-Nov-9", Some((1, 16)), Some((1, 16))),
        ("Sun, 06 Nov 1994 08:49:37 GMT\0", Some((1, 29)), Some((1, 29))),
        (&long[..HEADER_LIMIT], Some((1, 0)), Some((1, 0))),
        (&long, Some((13, HEADER_LIMIT)), Some((13, HEADER_LIMIT))),
    ] {
        assert_eq!((refusal(text, 1632), refusal(text, 9949)), (first, last), "{text:?}");
        let outside = OUTSIDE.map(|present| refusal(text, present));
        assert_eq!(outside, [Some((9, 0)); OUTSIDE.len()], "{text:?}");
    }
}

/// Conway's rule: 12 December is a Tuesday in 2000, and this many days of the week later in other years.
fn december_name(year: u32) -> &'static str {
    let later = 5 * (year % 4) + 4 * (year % 100) + 6 * (year % 400);
    DAY_NAMES[(1 + later as usize) % 7]
}

/// 12 December of the year, under its own name.
fn december(year: u32) -> String {
    midnight(december_name(year), &format!("12-Dec-{:02}", year % 100))
}

#[test]
fn names_of_the_twelfth_of_december() {
    for (_, _, year, name, _) in CHOSEN {
        assert_eq!(december_name(year.into()), name, "{year}");
    }
}

/// Each year from Y-49 to Y+50, under its own day name, is the one that its digits choose.
#[test]
fn every_year_of_the_window() {
    let presents = (1632..=9949).step_by(137).chain(SAMPLE);
    let years = presents.flat_map(|present| (present - 49..=present + 50).map(move |year| (present, year)));
    for (present, chosen) in years {
        assert_eq!(year(&december(chosen), present), Ok(chosen as u16), "with {present}");
    }
}

/// Y-50 and Y+51, just outside, have the digits of Y+50 and Y-49: under their own day names they are 4.
#[test]
fn years_beside_the_window() {
    for present in (1632..=9949).step_by(13).chain(SAMPLE) {
        assert_eq!(year(&december(present - 50), present), Err(refused(4)), "with {present}");
        assert_eq!(year(&december(present + 51), present), Err(refused(4)), "with {present}");
    }
}

/// Digits pass to the next century once the clock is 50 years from there.
#[test]
fn the_clock_moves_on() {
    for (present, chosen, name) in [
        (1976, 1976, "Sunday"),
        (2019, 1976, "Sunday"),
        (2024, 1976, "Sunday"),
        (2025, 1976, "Sunday"),
        (2026, 2076, "Saturday"),
        (2027, 2076, "Saturday"),
        (2076, 2076, "Saturday"),
        (2125, 2076, "Saturday"),
    ] {
        is_of(chosen, name, "12-Dec-76", present);
    }
}

/// 6 November is a Sunday in 1994; a century has 5,217 weeks and five days, or six with 29 February of 2000.
#[test]
fn day_names_of_other_centuries() {
    for (present, chosen, name) in [
        (1650, 1694, "Saturday"),
        (1750, 1794, "Thursday"),
        (1850, 1894, "Tuesday"),
        (1950, 1994, "Sunday"),
        (2019, 1994, "Sunday"),
        (2050, 2094, "Saturday"),
    ] {
        is_of(chosen, name, "06-Nov-94", present);
    }
}

/// `00` is 1900 with 1850 to 1949, and 2100 with 2050 to 2149: no leap years, so that no name helps.
#[test]
fn leap_days_of_other_years() {
    let presents = [1850, 1900, 1948, 1949, 2050, 2051, 2149];
    for (present, name) in presents.into_iter().flat_map(|present| DAY_NAMES.map(|name| (present, name))) {
        let text = midnight(name, "29-Feb-00");
        assert_eq!(read(&text, present), Err(refused(3)), "{text} with {present}");
    }
    // 25,508 days, or 3,644 weeks, lie from 1900-03-01 to 1970-01-01, a Thursday.
    let march = read(&midnight("Thursday", "01-Mar-00"), 1949);
    assert_eq!(march.map(|date| date.seconds), Ok(-25_508 * DAY));
    is_of(1900, "Thursday", "01-Mar-00", 1850);
    is_of(2100, "Monday", "01-Mar-00", 2050);
}

/// `00` is 2000 with 1950 to 2049.
#[test]
fn leap_days_of_2000() {
    for present in [1950, 1951, 2019, 2026, 2048, 2049] {
        is_of(2000, "Tuesday", "29-Feb-00", present);
        let leap_day = read(&midnight("Tuesday", "29-Feb-00"), present);
        assert_eq!(leap_day.map(|date| date.seconds), Ok(951_782_400), "{present}");
        assert_eq!(read(&midnight("Wednesday", "30-Feb-00"), present), Err(refused(3)), "{present}");
        is_of(2000, "Wednesday", "01-Mar-00", present);
    }
}

/// "A two-digit year from 70 to 99 means 1970 to 1999, and 00 to 69 means 2000 to 2069."
#[test]
fn old_results_with_2019() {
    let twentieth = (70..=99).map(|digits| (digits, 1900 + digits));
    let later = (0..=69).map(|digits| (digits, 2000 + digits));
    for (digits, chosen) in twentieth.chain(later) {
        is_of(chosen as u16, december_name(chosen), &format!("12-Dec-{digits:02}"), 2019);
    }
}

fn present_years_in_range() -> Vec<u32> {
    present_years().into_iter().filter(|year| (1632..=9949).contains(year)).chain(SAMPLE).collect()
}

#[test]
fn four_digit_years_do_not_follow_the_clock() {
    for present in present_years_in_range() {
        let seconds = |text| read(text, present).map(|date| date.seconds);
        assert_eq!(seconds("Sun, 06 Nov 1994 08:49:37 GMT"), Ok(784_111_777));
        assert_eq!(seconds("Sun Nov  6 08:49:37 1994"), Ok(784_111_777));
        assert_eq!(seconds("Wed, 31 Dec 1969 23:59:59 GMT"), Ok(-1));
        assert_eq!(seconds("Tue Feb 29 00:00:00 2000"), Ok(951_782_400));
        assert_eq!(seconds("Sat, 01 Jan 1583 00:00:00 GMT"), Ok(-12_212_553_600));
        assert_eq!(seconds("Fri Dec 31 23:59:59 9999"), Ok(253_402_300_799));
        assert_eq!(seconds("Thu, 29 Feb 1900 00:00:00 GMT"), Err(refused(3)));
        assert_eq!(seconds("Fri Dec 31 23:59:59 1582"), Err(refused(3)));
        assert_eq!(seconds("Mon, 06 Nov 1994 08:49:37 GMT"), Err(refused(4)));
        assert_eq!(seconds("Sun Nov  6 08:49:37 94"), Err(Refusal { number: 1, place: 22 }));
    }
}

/// Random dates and those at the limits: with any year in range, what is no RFC 850 form is answered alike.
#[test]
fn only_the_rfc850_form_follows_the_clock() {
    let mut rng = Rng::new(1);
    let random: Vec<_> = (0..ROUNDS).map(|_| any(Kind::Date, &mut rng)).collect();
    let limits = at_limits(Kind::Date);
    let years = present_years_in_range();
    let (mut same, mut other) = (0, 0);
    for input in random.iter().chain(limits.iter().step_by(11)) {
        let present = rng.pick(&years);
        if date::read(input, OLD_RESULTS_YEAR) == date::read(input, present) {
            same += 1;
            continue;
        }
        other += 1;
        let behind_month = input.len() - "-94 08:49:37 GMT".len();
        assert_eq!(input[behind_month], b'-', "{input:?} with {present}");
    }
    assert!(same > ROUNDS / 2 && other > ROUNDS / 100, "{same}, {other}");
}

#[test]
fn written_dates_are_read_back_with_every_present_year() {
    for (seconds, text) in [
        (784_111_777, "Sun, 06 Nov 1994 08:49:37 GMT"),
        (-12_212_553_600, "Sat, 01 Jan 1583 00:00:00 GMT"),
        (253_402_300_799, "Fri, 31 Dec 9999 23:59:59 GMT"),
    ] {
        assert_eq!(date::write(seconds, LENGTH), Ok(text.as_bytes().to_vec()));
        let differs = |present: &u32| read(text, *present).map(|date| date.seconds) != Ok(seconds);
        assert_eq!((1632..=9949).find(differs), None, "{text}");
    }
}
