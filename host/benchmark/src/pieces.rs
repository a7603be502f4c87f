//! The reader in pieces against a plain incremental decoder that is fed the same pieces.

use crate::bodies::{framed, framed_short, lent, random_body, whole, Output};
use crate::bodies::{BODY, OUTPUTS, OUTPUT_WORDS, PACKET};
use crate::measure::{thousands, times_as_long, Ratio};
use independent::plain::Answer;
use independent::plain_pieces::PlainPieces;
use quizotepec::{Decoded, Pieces};
use std::hint::black_box;

const ROUNDS: usize = 101;
/// In pieces of other lengths than a packet's, of which some take long.
const FEW_ROUNDS: usize = 5;

pub fn ours(frame: &[u8], piece_len: usize, out: &mut [u8]) -> Decoded {
    let mut pieces = Pieces::new(out);
    let mut answer = Decoded::More;
    for piece in frame.chunks(piece_len) {
        answer = pieces.feed(black_box(piece)).answer;
    }
    answer
}

pub fn plain(frame: &[u8], piece_len: usize, out: &mut [u8]) -> Answer {
    let mut pieces = PlainPieces::start(out.len());
    let mut answer = Answer::More;
    for piece in frame.chunks(piece_len) {
        answer = pieces.feed(black_box(piece), usize::MAX, out).answer;
    }
    answer
}

fn compare(rounds: usize, body: &[u8], frame: &[u8], piece_len: usize, output: Output) -> Ratio {
    let length = body.len();
    let (our_whole, plain_whole) = whole(frame.len(), length, 0);
    let mut outputs = [vec![0; length], vec![0; length]];
    let [first, second] = &mut outputs;
    let mut ours = || {
        let (time, answer) = lent(output, first, |out| ours(black_box(frame), piece_len, out));
        assert_eq!(answer, our_whole);
        time
    };
    let mut plain = || {
        let (time, answer) = lent(output, second, |out| plain(black_box(frame), piece_len, out));
        assert_eq!(answer, plain_whole);
        time
    };
    let ratio = times_as_long(rounds, &mut [&mut ours, &mut plain])[0];
    assert!(outputs.iter().all(|out| out == body), "the data differ");
    ratio
}

pub fn print() {
    let body = random_body(BODY);
    println!("Decoding 8 MiB in pieces: how many times as long ours takes as plain Rust, fed the same;");
    let packet = thousands(PACKET);
    println!("medians of {ROUNDS} rounds in pieces of {packet} and {FEW_ROUNDS} in others, and quartiles.");
    println!("{OUTPUT_WORDS}");
    println!("{:16} {:16} {:8} {:>26}", "chunk length", "piece length", "output", "against plain Rust");
    for (chunk_words, frame) in [framed(&body, 16), framed(&body, 4_096), framed_short(&body)] {
        let whole = ("one piece".to_string(), frame.len(), FEW_ROUNDS);
        let packets = (packet.clone(), PACKET, ROUNDS);
        for (piece_words, piece_len, rounds) in [packets, whole, ("1".to_string(), 1, FEW_ROUNDS)] {
            for (words, output) in OUTPUTS {
                let ratio = compare(rounds, &body, &frame, piece_len, output).to_string();
                println!("{chunk_words:16} {piece_words:16} {words:8} {ratio:>26}");
            }
        }
    }
}
