//! The plain bench program in C, which is for speed, against the one from the rules.

use independent::bench::{self, DIGIT_LIMIT, ROOM};
use independent::generate::{any, at_limits, every, short, valid, Kind, Rng};
use independent::generate::{body_with_names, trailers_with_each_byte};
use std::fs::File;
use std::io::{self, Read, Write};
use std::os::fd::OwnedFd;
use std::os::unix::net::UnixDatagram;
use std::path::{Path, PathBuf};
use std::process::{Child, Command, Stdio};
use std::sync::OnceLock;
use std::thread;

const SOURCE: &str = concat!(env!("CARGO_MANIFEST_DIR"), "/plain_bench.c");
const FLAGS: [&str; 7] =
    ["-std=c99", "-D_POSIX_C_SOURCE=200809L", "-O3", "-Wall", "-Wextra", "-pedantic", "-Werror"];
const ROUNDS: usize = 20_000;
const FEW_ROUNDS: usize = 1_000;
/// The longest piece that the program has room for, however much of a line it holds.
const LONGEST_PIECE: usize = 32_768;

/// The program, built once; none without a C compiler.
fn program() -> Option<&'static Path> {
    static PROGRAM: OnceLock<Option<PathBuf>> = OnceLock::new();
    let build = || {
        let path = Path::new(env!("CARGO_TARGET_TMPDIR")).join("plain_bench");
        let built = Command::new("cc").args(FLAGS).arg(SOURCE).arg("-o").arg(&path).output();
        match built {
            Ok(output) => {
                assert!(output.status.success(), "{}", String::from_utf8_lossy(&output.stderr));
                Some(path)
            }
            Err(error) if error.kind() == io::ErrorKind::NotFound => {
                println!("skipped: there is no `cc` to build plain_bench.c with");
                None
            }
            Err(error) => panic!("cc: {error}"),
        }
    };
    PROGRAM.get_or_init(build).as_deref()
}

fn start(program: &Path, input: impl Into<Stdio>) -> Child {
    Command::new(program).stdin(input).stdout(Stdio::piped()).spawn().expect("the program runs")
}

fn output(mut child: Child) -> String {
    let mut output = String::new();
    child.stdout.take().expect("its output").read_to_string(&mut output).expect("text");
    assert!(child.wait().expect("its end").success());
    output
}

/// What the program prints if each piece is what one of its reads gives; an empty piece is the end.
fn in_pieces(program: &Path, input: &[u8], mut length: impl FnMut() -> usize + Send) -> String {
    let (ours, theirs) = UnixDatagram::pair().expect("two sockets");
    let child = start(program, OwnedFd::from(theirs));
    thread::scope(|scope| {
        scope.spawn(move || {
            let mut rest = input;
            while !rest.is_empty() {
                let (piece, behind) = rest.split_at(length().min(rest.len()));
                ours.send(piece).expect("the program reads");
                rest = behind;
            }
            ours.send(b"").expect("the program reads");
        });
        output(child)
    })
}

/// What the program prints if it reads as much at once as it can.
fn from_file(program: &Path, input: &[u8], name: &str) -> String {
    let path = Path::new(env!("CARGO_TARGET_TMPDIR")).join(name);
    File::create(&path).and_then(|mut file| file.write_all(input)).expect("a file");
    output(start(program, File::open(&path).expect("the file")))
}

fn same(output: &str, expected: &str, input: &[u8], how: &str) {
    if output == expected {
        return;
    }
    let lines = input.split(|byte| *byte == b'\n').map(String::from_utf8_lossy);
    let differs = output.lines().zip(expected.lines()).zip(lines).find(|((one, other), _)| one != other);
    panic!("{how}: {} and {} bytes, first {differs:?}", output.len(), expected.len());
}

/// Both programs print the same for the input, however it is cut.
fn agree(input: &[u8], lengths: &[usize], name: &str) {
    let Some(program) = program() else { return };
    let expected = bench::run(input);
    same(&from_file(program, input, name), &expected, input, "at once");
    for length in lengths {
        same(&in_pieces(program, input, || *length), &expected, input, &format!("in pieces of {length}"));
    }
    let mut rng = Rng::new(input.len() as u64);
    for most in [64, 4_096, LONGEST_PIECE] {
        let output = in_pieces(program, input, || 1 + rng.below(most));
        same(&output, &expected, input, &format!("in pieces of up to {most}"));
    }
}

/// The bytes in hexadecimal, with each digit in either case.
fn hexadecimal(bytes: &[u8], rng: &mut Rng) -> Vec<u8> {
    let mut digit = |value: u8| {
        let digits = if rng.once_in(2) { b"0123456789ABCDEF" } else { b"0123456789abcdef" };
        digits[usize::from(value)]
    };
    bytes.iter().flat_map(|byte| [byte >> 4, byte & 0xF]).map(&mut digit).collect()
}

fn lines(frames: impl IntoIterator<Item = Vec<u8>>, rng: &mut Rng) -> Vec<u8> {
    let line = |frame: Vec<u8>| [hexadecimal(&frame, rng), b"\n".to_vec()].concat();
    frames.into_iter().flat_map(line).collect()
}

/// Once in a while, a line with another character, one too many or one too few.
fn damaged_line(mut line: Vec<u8>, rng: &mut Rng) -> Vec<u8> {
    let at = rng.below(line.len() + 1);
    match rng.below(30) {
        0 => line.insert(at, rng.pick(b"0aG\r x\0\xff:/@`g")),
        1 if at < line.len() => line[at] = rng.pick(b"gG/:@`\r \0\x80"),
        2 => line.truncate(at),
        _ => {}
    }
    line
}

fn random_lines(rounds: usize, rng: &mut Rng) -> Vec<u8> {
    let mut input = Vec::new();
    for _ in 0..rounds {
        let frame = match rng.below(6) {
            0 => body_with_names(rng),
            1 => valid(Kind::Chunked, rng),
            _ => any(Kind::Chunked, rng),
        };
        let line = hexadecimal(&frame, rng);
        input.extend(damaged_line(line, rng));
        input.push(b'\n');
    }
    input
}

#[test]
fn random_frames() {
    let mut rng = Rng::new(1);
    agree(&random_lines(ROUNDS, &mut rng), &[100, 1_460, LONGEST_PIECE], "random_frames");
    let few = random_lines(FEW_ROUNDS, &mut rng);
    agree(&few, &[1, 2, 3, 7, 64, 1_000], "few_random_frames");
}

#[test]
fn frames_at_limits() {
    let mut rng = Rng::new(2);
    agree(&lines(at_limits(Kind::Chunked), &mut rng), &[1_460], "frames_at_limits");
}

#[test]
fn short_frames() {
    let mut rng = Rng::new(3);
    let frames = short(Kind::Chunked).iter().flat_map(|family| every(*family));
    agree(&lines(frames, &mut rng), &[LONGEST_PIECE], "short_frames");
}

/// Each byte in each place of a body with every part, and of the names that no trailer may hold.
#[test]
fn each_byte() {
    const BODY: &[u8] = b"2;a=b;c=\"\\\"d\"\r\nxy\r\n00;e\r\nF:\tg\r\nH:\r\n\r\n";
    let places = (0..BODY.len()).flat_map(|place| (0..=255).map(move |byte| (place, byte)));
    let replaced = places.map(|(place, byte)| [&BODY[..place], &[byte], &BODY[place + 1..]].concat());
    let mut rng = Rng::new(4);
    agree(&lines(replaced.chain(trailers_with_each_byte()), &mut rng), &[4_096], "each_byte");
}

/// Each character in each place of a line.
#[test]
fn each_character() {
    let line: &[u8] = b"310D0A410D0A300D0A0D0a";
    let mut input = Vec::new();
    for (place, character) in (0..line.len()).flat_map(|place| (0..=255).map(move |byte| (place, byte))) {
        input.extend([&line[..place], &[character], &line[place + 1..], b"\n"].concat());
    }
    agree(&input, &[4_096], "each_character");
}

/// Chunks that fill the room but for a byte, fill it or pass it, in frames that hold them or end before.
#[test]
fn rooms() {
    let mut frames = Vec::new();
    for first in [0, 1, 15, 16, 255, 4_096, ROOM - 100, ROOM - 16] {
        let filled = [format!("{first:x}\r\n").as_bytes(), &vec![b'x'; first], b"\r\n"].concat();
        let front = if first == 0 { Vec::new() } else { filled };
        for size in ROOM - first - 2..=ROOM - first + 2 {
            for digits in [format!("{size:X}"), format!("000{size:x};a"), format!("{size:X}0")] {
                frames.push([&front, digits.as_bytes(), b"\r\ny\r\n"].concat());
            }
        }
    }
    for digits in ["FFFFFFFFFFFFFFFF", "10000000000000000", "00000000000000001\r\nx\r\n0\r\n\r\n", "4000\r\n"]
    {
        frames.push(digits.as_bytes().to_vec());
    }
    // The longest frame: its line has all the digits allowed.
    let data = ROOM - b"3FF3\r\n\r\n0\r\n\r\n".len();
    let longest =
        |data: usize| [format!("{data:X}\r\n").as_bytes(), &vec![0; data], b"\r\n0\r\n\r\n"].concat();
    frames.extend([data - 1, data, data + 1].map(longest));
    let input = lines(frames, &mut Rng::new(5));
    assert!(bench::run(&input).contains(&format!("C {ROOM} {data}\n")));
    agree(&input, &[1_460, LONGEST_PIECE], "rooms");
}

/// Lines about as long as allowed and much longer ones, good and bad, with other lines around them.
#[test]
fn long_lines() {
    let lengths = (DIGIT_LIMIT - 2..=DIGIT_LIMIT + 3).chain([
        LONGEST_PIECE + 1,
        65_534,
        65_535,
        65_536,
        65_537,
        65_538,
        98_304,
        131_072,
        300_000,
    ]);
    let mut all = Vec::new();
    for (index, length) in lengths.enumerate() {
        let mut line = vec![b'3'; length];
        // Without this the line is refused as too large.
        line[..8].copy_from_slice(if index % 2 == 0 { b"30303B61" } else { b"3b303b61" });
        all.extend([&line, &b"\n350D0A\n"[..]].concat());
        all.extend([b"\n\n", &line[..length - 1], b"\n300D0A0D0A\n"].concat());
        for end in ["", "\n", "\n\n", "\n33", "\nx"] {
            agree(&[b"\n", &line[..], end.as_bytes()].concat(), &[LONGEST_PIECE], "long_line");
        }
    }
    agree(&all, &[1_000, 1_460, 4_096, 16_384, LONGEST_PIECE - 1, LONGEST_PIECE], "long_lines");
}

/// What stands behind the last LF is a line only if it has a byte.
#[test]
fn ends() {
    for input in
        ["", "\n", "\n\n", "3", "30", "30\n", "\n3", "x", "x\n", "300D0A0D0A", "300D0A0D0A\n", "30\r\n"]
    {
        agree(input.as_bytes(), &[1, 2], "ends");
    }
}
