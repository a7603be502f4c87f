//! Normal forms of URLs against a plain writer.

use crate::measure::{against, count_for, Ratio, SHORT_ROUNDS};
use independent::plain_values;
use quizotepec::url_normalize;
use std::hint::black_box;

fn compare(url: &[u8]) -> Ratio {
    let (mut out, mut plain_out) = ([0; 8_192], [0; 8_192]);
    let length = url_normalize(url, &mut out).expect("a URL");
    assert_eq!(plain_values::url_normalize(url, &mut plain_out), Ok(length));
    assert_eq!(out[..length], plain_out[..length]);
    against(
        count_for(url.len()),
        || url_normalize(black_box(url), black_box(&mut out)),
        || plain_values::url_normalize(black_box(url), black_box(&mut plain_out)),
    )
}

pub fn print() {
    println!("Normal forms of URLs: how many times as long ours takes as plain Rust;");
    println!("medians of {SHORT_ROUNDS} short rounds, and quartiles.");
    println!("{:24} {:>26}", "URL", "against plain Rust");
    for (name, url) in [
        ("31 bytes, normal", "http://abc.com/~smith/home.html".to_string()),
        ("34 bytes, not so", "HTTP://ABC.com:/%7Esmith/home.html".to_string()),
        ("79 bytes, with query", format!("http://www.abc.com:8080/{}?q=%2Fa%7Eb&r=c", "path/to/".repeat(5))),
        ("8 KB of path", format!("http://abc.com/{}", "smith/".repeat(1_360))),
        ("8 KB of escapes", format!("http://abc.com/{}", "%7e".repeat(2_720))),
    ] {
        println!("{name:24} {:>26}", compare(url.as_bytes()).to_string());
    }
}
