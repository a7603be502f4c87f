//! Byte ranges against a plain reader.

use crate::measure::{against, count_for, Ratio, SHORT_ROUNDS};
use independent::plain_values::ranges;
use quizotepec::{ranges_read, Ranges};
use std::hint::black_box;

const ENTITY_LENGTH: u64 = 10_000;

fn compare(value: &[u8]) -> Ratio {
    let Ok(Ranges::Satisfiable(set)) = ranges_read(value, ENTITY_LENGTH) else {
        panic!("a set that is read")
    };
    let table = ranges(value, ENTITY_LENGTH).expect("a set that is read");
    let ours = set.ranges().iter().map(|range| (range.first, range.last));
    assert!(ours.eq(table.left().iter().map(|range| (range.first, range.last))), "both read the same");
    against(
        count_for(value.len()),
        || ranges_read(black_box(value), black_box(ENTITY_LENGTH)),
        || ranges(black_box(value), black_box(ENTITY_LENGTH)),
    )
}

pub fn print() {
    println!("Byte ranges: how many times as long ours takes as plain Rust;");
    println!("medians of {SHORT_ROUNDS} short rounds, and quartiles.");
    println!("{:16} {:>26}", "elements", "against plain Rust");
    let sixteen = format!("bytes=0-99{}", " , 9500-9999".repeat(15));
    for (name, value) in [("1", "bytes=0-499"), ("4", "bytes=0-499,9500-,-500,500-20000"), ("16", &sixteen)] {
        println!("{name:16} {:>26}", compare(value.as_bytes()).to_string());
    }
}
