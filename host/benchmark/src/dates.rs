//! Dates against a plain reader.

use crate::measure::{against, count_for, Ratio, SHORT_ROUNDS};
use crate::plain_date;
use quizotepec::date_read;
use std::hint::black_box;

pub const PRESENT_YEAR: u32 = 2026;

fn compare(value: &[u8]) -> Ratio {
    let date = date_read(value, PRESENT_YEAR).expect("a date");
    assert_eq!(plain_date::read(value, PRESENT_YEAR), Ok(date));
    against(
        count_for(value.len()),
        || date_read(black_box(value), black_box(PRESENT_YEAR)),
        || plain_date::read(black_box(value), black_box(PRESENT_YEAR)),
    )
}

pub fn print() {
    println!("Dates in {PRESENT_YEAR}: how many times as long ours takes as plain Rust;");
    println!("medians of {SHORT_ROUNDS} short rounds, and quartiles.");
    println!("{:16} {:>26}", "form", "against plain Rust");
    for (name, value) in [
        ("RFC 1123", "Sun, 06 Nov 1994 08:49:37 GMT"),
        ("RFC 850, 1994", "Sunday, 06-Nov-94 08:49:37 GMT"),
        ("RFC 850, 2076", "Wednesday, 01-Jan-76 00:00:00 GMT"),
        ("asctime", "Sun Nov  6 08:49:37 1994"),
    ] {
        println!("{name:16} {:>26}", compare(value.as_bytes()).to_string());
    }
}
