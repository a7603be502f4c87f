//! The bench program of document 01 as a function from its input to its output.

use crate::chunked::{decode, Decoded};
use std::fmt::Write;

pub const DIGIT_LIMIT: usize = 32_768;
pub const ROOM: usize = 16_384;

pub fn run(input: &[u8]) -> String {
    // What follows the last LF is a line only if it has a byte.
    let lines = input.strip_suffix(b"\n").unwrap_or(input);
    let mut output = String::new();
    if input.is_empty() {
        return output;
    }
    for line in lines.split(|byte| *byte == b'\n') {
        let _ = match frame(line).map(|bytes| decode(&bytes, ROOM)) {
            None => writeln!(output, "X"),
            Some(Decoded::More) => writeln!(output, "M"),
            Some(Decoded::Whole { taken, data, .. }) => writeln!(output, "C {taken} {}", data.len()),
            Some(Decoded::Refused(refusal)) => writeln!(output, "R {} {}", refusal.number, refusal.place),
        };
    }
    output
}

fn frame(line: &[u8]) -> Option<Vec<u8>> {
    if line.len() > DIGIT_LIMIT || line.len() % 2 != 0 {
        return None;
    }
    let digit = |byte: u8| char::from(byte).to_digit(16);
    line.chunks(2).map(|pair| Some((digit(pair[0])? * 16 + digit(pair[1])?) as u8)).collect()
}
