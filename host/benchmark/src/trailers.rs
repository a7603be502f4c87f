//! Short bodies with a trailer: both readers against the plain decoders.

use crate::bodies::whole;
use crate::measure::{against, count_for, Ratio, SHORT_ROUNDS};
use crate::pieces;
use independent::plain::{plain_decode, Answer};
use quizotepec::{chunked_decode, Decoded};
use std::hint::black_box;

/// How often the lines stand in the trailer.
const TIMES: usize = 2;

const DATA: &[u8] = b"hello";
/// Some names begin as those do that no trailer may hold.
const LINES: [&str; 8] = [
    "ETag: \"686897696a7c876b7e\"\r\n",
    "Expires: Sun, 06 Nov 1994 08:49:37 GMT\r\n",
    "Content-MD5: Q2hlY2sgSW50ZWdyaXR5IQ==\r\n",
    "Last-Modified: Sat, 05 Nov 1994 12:45:26 GMT\r\n",
    "Content-Language: mi, en\r\n",
    "Title: The annual report of the committee\r\n",
    "Cache-Control: private, max-age=3600\r\n",
    "X-Checksum: 00112233445566778899aabbccddeeff\r\n",
];

fn trailer() -> Vec<u8> {
    LINES.concat().repeat(TIMES).into_bytes()
}

fn compare(ours: impl Fn(&[u8], &mut [u8]) -> Decoded, plain: impl Fn(&[u8], &mut [u8]) -> Answer) -> Ratio {
    let trailer = trailer();
    let frame = [format!("{:X}\r\n", DATA.len()).as_bytes(), DATA, b"\r\n0\r\n", &trailer, b"\r\n"].concat();
    let mut outputs = [[0; DATA.len()]; 2];
    let [first, second] = &mut outputs;
    let answers = (ours(&frame, first), plain(&frame, second));
    assert_eq!(answers, whole(frame.len(), DATA.len(), trailer.len()));
    let ratio = against(
        count_for(frame.len()),
        || ours(black_box(&frame), black_box(first)),
        || plain(black_box(&frame), black_box(second)),
    );
    assert!(outputs.iter().all(|out| out == DATA), "the data differ");
    ratio
}

pub fn print() {
    let (lines, bytes) = (LINES.len() * TIMES, trailer().len());
    println!("Decoding a short body with {lines} trailer lines, {bytes} bytes:");
    println!("how many times as long ours takes as plain Rust;");
    println!("medians of {SHORT_ROUNDS} short rounds, and quartiles.");
    println!("The output is kept as the call before left it.");
    println!("{:16} {:>26}", "reader", "against plain Rust");
    println!("{:16} {:>26}", "one call", compare(chunked_decode, plain_decode).to_string());
    for (name, piece_len) in [("one piece", usize::MAX), ("pieces of 64", 64), ("pieces of 1", 1)] {
        let ours = |frame: &[u8], out: &mut [u8]| pieces::ours(frame, piece_len, out);
        let plain = |frame: &[u8], out: &mut [u8]| pieces::plain(frame, piece_len, out);
        println!("{name:16} {:>26}", compare(ours, plain).to_string());
    }
}
