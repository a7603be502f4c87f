//! Delta-seconds against a plain reader.

use crate::measure::{against, count_for, Ratio, SHORT_ROUNDS};
use independent::plain_values::delta;
use quizotepec::{delta_read, Seconds};
use std::hint::black_box;

fn compare(value: &[u8]) -> Ratio {
    let theirs = delta(value).map(|s| Seconds { value: s.value, capped: s.capped });
    assert_eq!(delta_read(value).unwrap(), theirs.unwrap());
    against(count_for(value.len()), || delta_read(black_box(value)), || delta(black_box(value)))
}

pub fn print() {
    println!("Delta-seconds: how many times as long ours takes as plain Rust;");
    println!("medians of {SHORT_ROUNDS} short rounds, and quartiles.");
    println!("{:16} {:>26}", "value", "against plain Rust");
    for value in ["120", "2147483647", "99999999999"] {
        println!("{value:16} {:>26}", compare(value.as_bytes()).to_string());
    }
    for (name, digit) in [("8,192 zeros", b'0'), ("8,192 nines", b'9')] {
        println!("{name:16} {:>26}", compare(&[digit; 8_192]).to_string());
    }
}
