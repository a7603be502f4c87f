//! One call on a short body: the chunked reader against the plain one-pass decoder.

use crate::bodies::{framed, random_body, whole};
use crate::measure::{against, thousands, Ratio, SHORT_ROUNDS};
use independent::plain::plain_decode;
use quizotepec::chunked_decode;
use std::hint::black_box;

/// How often a round decodes the body.
const CALLS: usize = 5_000;
/// An output that is longer than each body.
const AMPLE: usize = 4_096;

/// The body is one chunk.
fn compare(length: usize, room: usize) -> Ratio {
    let body = random_body(length);
    let (_, frame) = framed(&body, length);
    let mut outputs = [vec![0; room], vec![0; room]];
    let [first, second] = &mut outputs;
    let answers = (chunked_decode(&frame, first), plain_decode(&frame, second));
    assert_eq!(answers, whole(frame.len(), length, 0));
    let ratio = against(
        CALLS,
        || chunked_decode(black_box(&frame), black_box(first)),
        || plain_decode(black_box(&frame), black_box(second)),
    );
    assert!(outputs.iter().all(|out| out[..length] == body), "the data differ");
    ratio
}

pub fn print() {
    println!("Decoding a body of one chunk in one call: how many times as long ours takes as plain Rust;");
    println!("medians of {SHORT_ROUNDS} short rounds of {} calls, and quartiles.", thousands(CALLS));
    println!("The output is kept as the call before left it.");
    println!("{:16} {:16} {:>26}", "chunk length", "output length", "against plain Rust");
    for length in [5, 100, 1_024] {
        for room in [length, AMPLE] {
            let (length_words, room_words) = (thousands(length), thousands(room));
            println!("{length_words:16} {room_words:16} {:>26}", compare(length, room).to_string());
        }
    }
}
