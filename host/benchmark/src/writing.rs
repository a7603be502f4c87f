//! The writer of chunked bodies against a plain one.

use crate::bodies::{framed, lent, random_body, Output, BODY, OUTPUTS, OUTPUT_WORDS};
use crate::measure::{times_as_long, Ratio};
use independent::plain::plain_encode;
use quizotepec::chunked_encode;
use std::hint::black_box;

const ROUNDS: usize = 101;

fn compare(body: &[u8], chunk_len: usize, frame: &[u8], output: Output) -> Ratio {
    let length = frame.len();
    let mut outputs = [vec![0; length], vec![0; length]];
    let [first, second] = &mut outputs;
    let mut ours = || {
        let encode = |out: &mut [u8]| chunked_encode(black_box(body), black_box(chunk_len), out);
        let (time, answer) = lent(output, first, encode);
        assert_eq!(answer, Ok(length));
        time
    };
    let mut plain = || {
        let encode = |out: &mut [u8]| plain_encode(black_box(body), black_box(chunk_len), out);
        let (time, answer) = lent(output, second, encode);
        assert_eq!(answer, Ok(length));
        time
    };
    let ratio = times_as_long(ROUNDS, &mut [&mut ours, &mut plain])[0];
    assert!(outputs.iter().all(|out| out == frame), "the frames differ");
    ratio
}

pub fn print() {
    let body = random_body(BODY);
    println!("Writing 8 MiB in chunks: how many times as long ours takes as plain Rust;");
    println!("medians of {ROUNDS} rounds, and quartiles.");
    println!("{OUTPUT_WORDS}");
    println!("{:16} {:8} {:>26}", "chunk length", "output", "against plain Rust");
    for chunk_len in [16, 64, 4_096] {
        let (name, frame) = framed(&body, chunk_len);
        for (words, output) in OUTPUTS {
            let ratio = compare(&body, chunk_len, &frame, output).to_string();
            println!("{name:16} {words:8} {ratio:>26}");
        }
    }
}
