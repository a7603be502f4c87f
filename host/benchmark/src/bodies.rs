//! The chunked reader against a plain one-pass decoder and a bare copy of the same data.

use crate::measure::{thousands, timed, times_as_long, Ratio, Round};
use independent::generate::Rng;
use independent::plain::{plain_decode, Answer};
use quizotepec::{chunked_decode, Decoded, Span};
use std::hint::black_box;
use std::time::Duration;

pub const BODY: usize = 8 << 20;
const ROUNDS: usize = 101;

/// The longest chunks where lengths are random.
const SHORT_CHUNK: usize = 64;
const LONG_CHUNK: usize = 8_192;

/// The data of an Ethernet frame with IP and TCP.
pub const PACKET: usize = 1_460;

/// A chunk extension.
const EXTENSION: &str = ";a=b";

/// What the output holds before each call.
#[derive(Clone, Copy)]
pub enum Output {
    /// What the call before wrote.
    Kept,
    /// Zeros, written outside the timing.
    Cleared,
}

pub const OUTPUTS: [(&str, Output); 2] = [("kept", Output::Kept), ("cleared", Output::Cleared)];
/// What the headings say of them.
pub const OUTPUT_WORDS: &str =
    "Each output was written to before: it is kept as that left it, or cleared outside the timing.";

/// Bytes of data that nothing is known of.
pub fn random_body(length: usize) -> Vec<u8> {
    let mut rng = Rng::new(1);
    (0..length).map(|_| rng.byte()).collect()
}

/// Each chunk line but the last ends with the extension.
fn frame_with(extension: &str, body: &[u8], mut chunk_len: impl FnMut() -> usize) -> Vec<u8> {
    let mut frame = Vec::new();
    let mut rest = body;
    while !rest.is_empty() {
        let (chunk, behind) = rest.split_at(chunk_len().min(rest.len()));
        frame.extend_from_slice(format!("{:X}{extension}\r\n", chunk.len()).as_bytes());
        frame.extend_from_slice(chunk);
        frame.extend_from_slice(b"\r\n");
        rest = behind;
    }
    frame.extend_from_slice(b"0\r\n\r\n");
    frame
}

pub fn frame(body: &[u8], chunk_len: impl FnMut() -> usize) -> Vec<u8> {
    frame_with("", body, chunk_len)
}

/// What ours and the plain decoder say of a whole body with a trailer of so many bytes.
pub fn whole(taken: usize, length: usize, trailer_length: usize) -> (Decoded, Answer) {
    let start = taken - trailer_length - b"\r\n".len();
    let trailer = Span { start, length: trailer_length };
    let plain_trailer = independent::Span { start, length: trailer_length };
    (Decoded::Whole { taken, length, trailer }, Answer::Whole { taken, length, trailer: plain_trailer })
}

/// Lends the output to `run`.
pub fn lent<A>(output: Output, out: &mut [u8], run: impl FnOnce(&mut [u8]) -> A) -> (Duration, A) {
    if let Output::Cleared = output {
        black_box(&mut *out).fill(0);
    }
    timed(|| run(black_box(out)))
}

/// Ours against the plain decoder, and ours against a bare copy.
fn compare(body: &[u8], frame: &[u8], output: Output) -> [Ratio; 2] {
    let length = body.len();
    let (our_whole, plain_whole) = whole(frame.len(), length, 0);
    let mut outputs = [vec![0; length], vec![0; length], vec![0; length]];
    let [first, second, third] = &mut outputs;
    let mut ours = || {
        let (time, answer) = lent(output, first, |out| chunked_decode(black_box(frame), out));
        assert_eq!(answer, our_whole);
        time
    };
    let mut plain = || {
        let (time, answer) = lent(output, second, |out| plain_decode(black_box(frame), out));
        assert_eq!(answer, plain_whole);
        time
    };
    let mut copy = || lent(output, third, |out| out.copy_from_slice(black_box(body))).0;
    // In pairs, so that both find the same in the caches: with three in turn ours mostly ran behind the copy, which
    // reads other bytes, and the plain decoder behind ours, which had just read the frame.
    let ratios = [&mut plain as Round, &mut copy].map(|other| times_as_long(ROUNDS, &mut [&mut ours, other])[0]);
    assert!(outputs.iter().all(|out| out == body), "the data differ");
    ratios
}

/// The chunk lengths in words, and the body in such chunks.
type Framed = (String, Vec<u8>);

pub fn framed(body: &[u8], chunk_len: usize) -> Framed {
    (thousands(chunk_len), frame(body, || chunk_len))
}

fn framed_random(body: &[u8], longest: usize) -> Framed {
    let mut rng = Rng::new(2);
    (format!("1 to {}, random", thousands(longest)), frame(body, || 1 + rng.below(longest)))
}

/// In random chunks of few bytes.
pub fn framed_short(body: &[u8]) -> Framed {
    framed_random(body, SHORT_CHUNK)
}

fn frames(body: &[u8]) -> Vec<Framed> {
    let mut frames: Vec<_> = [16, 64, 256, PACKET, 4_096, 65_536].map(|length| framed(body, length)).into();
    frames.extend([framed_short(body), framed_random(body, LONG_CHUNK)]);
    frames.push((format!("16 with {EXTENSION}"), frame_with(EXTENSION, body, || 16)));
    let mut rng = Rng::new(2);
    let random = frame_with(EXTENSION, body, || 1 + rng.below(SHORT_CHUNK));
    frames.push((format!("1 to {SHORT_CHUNK}, random, with {EXTENSION}"), random));
    frames
}

pub fn print() {
    let body = random_body(BODY);
    println!("Decoding 8 MiB: how many times as long ours takes; medians of {ROUNDS} rounds, and quartiles.");
    println!("{OUTPUT_WORDS}");
    let (plain, copy) = ("against plain Rust", "against a bare copy");
    println!("{:28} {:8} {plain:>26} {copy:>26}", "chunk length", "output");
    for (name, frame) in &frames(&body) {
        for (words, output) in OUTPUTS {
            let [plain, copy] = compare(&body, frame, output);
            println!("{name:28} {words:8} {:>26} {:>26}", plain.to_string(), copy.to_string());
        }
    }
}

#[cfg(test)]
mod tests {
    use super::*;

    #[test]
    fn frames_are_those_of_the_writer() {
        let body = b"hello, world";
        for chunk_len in [1, 5, 12, 100] {
            let expected = independent::chunked::encode(body, chunk_len, usize::MAX);
            assert_eq!(Ok(frame(body, || chunk_len)), expected);
        }
    }
}
