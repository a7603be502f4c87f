//! The bench program, as it is built and linked, against the independent one and the plain one in C: on lines
//! of every kind, cut into pieces in many ways.

use independent::bench::{run, DIGIT_LIMIT, ROOM};
use independent::chunked::encode;
use independent::generate::{allowed_names, forbidden_names, trailers_with, trailers_with_each_byte};
use independent::generate::{any, at_limits, cut, damage, Kind, Rng};
use std::io::{self, Write};
use std::path::{Path, PathBuf};
use std::process::{Child, Command, Output, Stdio};
use std::sync::OnceLock;
use std::thread;

/// How many lines each seed makes.
const LINES: usize = 20_000;
/// How many long ones.
const LONG_LINES: usize = 1_000;

fn program() -> PathBuf {
    let path = PathBuf::from(env!("CARGO_MANIFEST_DIR")).join("../../crates/bench/out/bench");
    assert!(path.is_file(), "{} is missing: run `rt run` in crates/bench", path.display());
    path
}

/// The plain program in C, built once; none without a C compiler.
fn plain_program() -> Option<&'static Path> {
    static PROGRAM: OnceLock<Option<PathBuf>> = OnceLock::new();
    let build = || {
        let source = concat!(env!("CARGO_MANIFEST_DIR"), "/../independent/plain_bench.c");
        let path = Path::new(env!("CARGO_TARGET_TMPDIR")).join("plain_bench_of_ours");
        let flags = ["-std=c99", "-D_POSIX_C_SOURCE=200809L", "-O3", source, "-o"];
        match Command::new("cc").args(flags).arg(&path).output() {
            Ok(built) => {
                assert!(built.status.success(), "{}", String::from_utf8_lossy(&built.stderr));
                Some(path)
            }
            Err(error) if error.kind() == io::ErrorKind::NotFound => {
                println!("skipped: there is no `cc` to build plain_bench.c with");
                None
            }
            Err(error) => panic!("cc: {error}"),
        }
    };
    PROGRAM.get_or_init(build).as_deref()
}

fn start(program: &Path, output: Stdio) -> Child {
    let mut command = Command::new(program);
    command.stdin(Stdio::piped()).stdout(output).stderr(Stdio::piped());
    command.spawn().expect("the bench program starts")
}

/// Feeds the pieces one by one, each in a write of its own.
fn fed(pieces: Vec<Vec<u8>>) -> Output {
    fed_to(&program(), pieces)
}

fn fed_to(program: &Path, pieces: Vec<Vec<u8>>) -> Output {
    let mut child = start(program, Stdio::piped());
    let mut input = child.stdin.take().expect("a pipe");
    let feeder = thread::spawn(move || {
        for piece in pieces {
            input.write_all(&piece).expect("the program reads all of its input");
        }
    });
    let output = child.wait_with_output().expect("the program ends");
    feeder.join().expect("all pieces are written");
    output
}

/// One line holds the mistake that a difference shows best.
fn same(input: &[u8], output: &Output) {
    same_as(&run(input), input, output);
}

fn same_as(expected: &str, input: &[u8], output: &Output) {
    let said = String::from_utf8(output.stdout.clone()).expect("ASCII");
    let inputs = input.split(|byte| *byte == b'\n');
    for (line, (want, got)) in inputs.zip(expected.lines().zip(said.lines())) {
        assert_eq!(got, want, "{}", String::from_utf8_lossy(line));
    }
    assert_eq!(said, expected);
    assert!(output.stderr.is_empty(), "{}", String::from_utf8_lossy(&output.stderr));
}

fn hex(bytes: &[u8], rng: &mut Rng) -> Vec<u8> {
    let digits: &[u8] = if rng.once_in(2) { b"0123456789ABCDEF" } else { b"0123456789abcdef" };
    bytes.iter().flat_map(|byte| [digits[usize::from(byte >> 4)], digits[usize::from(byte & 15)]]).collect()
}

/// A frame, or a line that is none: odd, of other characters, too long.
fn line(rng: &mut Rng) -> Vec<u8> {
    let bytes = if rng.once_in(50) { Vec::new() } else { any(Kind::Chunked, rng) };
    let mut line = hex(&bytes, rng);
    match rng.below(40) {
        0 => line.push(b'3'),
        1 => line.push(rng.pick(b"gG/:@`\r\0 \xff")),
        2 => line.resize(DIGIT_LIMIT + rng.below(3), b'0'),
        _ => {}
    }
    line
}

/// Each frame in a line of its own.
fn lines_of(frames: &[Vec<u8>], rng: &mut Rng) -> Vec<u8> {
    frames.iter().flat_map(|frame| [hex(frame, rng), b"\n".to_vec()].concat()).collect()
}

fn input(rng: &mut Rng, count: usize) -> Vec<u8> {
    let mut text = Vec::new();
    for _ in 0..count {
        text.extend(line(rng));
        text.push(b'\n');
    }
    if rng.once_in(2) {
        text.pop();
    }
    text
}

/// The input in pieces of up to `most` bytes.
fn pieces(input: &[u8], most: usize, rng: &mut Rng) -> Vec<Vec<u8>> {
    let mut left = input;
    let mut out = Vec::new();
    while !left.is_empty() {
        let (piece, rest) = left.split_at((1 + rng.below(most)).min(left.len()));
        out.push(piece.to_vec());
        left = rest;
    }
    out
}

#[test]
fn generated_lines() {
    for seed in 0..3 {
        let mut rng = Rng::new(seed);
        let text = input(&mut rng, LINES);
        same(&text, &fed(vec![text.clone()]));
    }
}

#[test]
fn whatever_the_pieces_are() {
    for most in [1, 7, 4_095, 4_096, 4_097, 70_000] {
        let mut rng = Rng::new(most as u64);
        let text = input(&mut rng, if most < 10 { 40 } else { 400 });
        same(&text, &fed(pieces(&text, most, &mut rng)));
    }
}

#[test]
fn lines_at_the_limits() {
    let mut text = lines_of(&at_limits(Kind::Chunked), &mut Rng::new(0));
    for length in DIGIT_LIMIT - 2..=DIGIT_LIMIT + 3 {
        text.extend(vec![b'3'; length]);
        text.push(b'\n');
    }
    same(&text, &fed(vec![text.clone()]));
}

#[test]
fn names_in_trailers() {
    let mut rng = Rng::new(4);
    let names = [forbidden_names(&mut rng), allowed_names()].concat();
    let frames: Vec<_> = names.iter().flat_map(|name| trailers_with(name)).collect();
    let text = lines_of(&frames, &mut rng);
    same(&text, &fed(vec![text.clone()]));
}

#[test]
fn ends_of_input() {
    for text in
        [&b""[..], b"\n", b"\n\n", b"3", b"30", b"\n30", b"300D0A0D0A", b"300D0A0D0A\n", b"300D0A0D0A\n\n"]
    {
        same(text, &fed(vec![text.to_vec()]));
    }
}

/// Both programs print the same, each fed at once.
fn same_as_plain(input: &[u8]) {
    let Some(plain) = plain_program() else { return };
    let expected = fed_to(plain, vec![input.to_vec()]);
    let expected = String::from_utf8(expected.stdout).expect("ASCII");
    same_as(&expected, input, &fed(vec![input.to_vec()]));
}

#[test]
fn generated_lines_as_plain() {
    let mut rng = Rng::new(5);
    same_as_plain(&input(&mut rng, LINES));
    same_as_plain(&lines_of(&at_limits(Kind::Chunked), &mut rng));
    same_as_plain(&lines_of(&trailers_with_each_byte(), &mut rng));
}

/// Bodies of up to as many bytes as a line has room for, in chunks of one length, some of them changed.
#[test]
fn long_lines_as_plain() {
    let mut rng = Rng::new(6);
    let mut frames = Vec::new();
    for _ in 0..LONG_LINES {
        let data: Vec<u8> = (0..rng.below(ROOM)).map(|_| rng.byte()).collect();
        let longest = rng.pick(&[16, 64, 300, ROOM]);
        let frame = encode(&data, 1 + rng.below(longest), usize::MAX).expect("a frame");
        frames.push(match rng.below(4) {
            0 => cut(frame, &mut rng),
            1 => damage(frame, &mut rng),
            _ => frame,
        });
    }
    same_as_plain(&lines_of(&frames, &mut rng));
}

/// "A program has no exit status": it says on standard error that its output was lost.
#[test]
#[cfg(target_os = "linux")]
fn lost_output_is_said() {
    let full = std::fs::OpenOptions::new().write(true).open("/dev/full").expect("/dev/full");
    let mut child = start(&program(), Stdio::from(full));
    let mut input = child.stdin.take().expect("a pipe");
    let feeder = thread::spawn(move || drop(input.write_all(b"300D0A0D0A\n")));
    let output = child.wait_with_output().expect("the program ends");
    feeder.join().expect("the input is written");
    assert_eq!(String::from_utf8_lossy(&output.stderr), "bench: standard output: write failed\n");
}
