//! The bench program against one in C, each as a process of its own.

use crate::bodies::{frame, random_body};
use crate::measure::{thousands, times_as_long, Ratio};
use std::fs::{self, File};
use std::io;
use std::path::{Path, PathBuf};
use std::process::{Command, Stdio};
use std::time::{Duration, Instant};

const ROUNDS: usize = 15;
/// How many hex digits each line has.
const DIGITS: usize = 16_384;
/// About 64 MB in all.
const LINES: usize = 4_000;

/// What `host/bench` has built, below the repository's root.
const OURS: &str = "crates/bench/out/bench";
const PLAIN: &str = "target/host/plain_bench";
const INPUT: &str = "target/host/bench.in";

fn path(name: &str) -> PathBuf {
    Path::new(env!("CARGO_MANIFEST_DIR")).join("../..").join(name)
}

/// The length of the longest body that such chunks frame in half as many bytes as a line has digits.
fn body_length(chunk_len: usize) -> usize {
    let body = [0; DIGITS / 2];
    let fills = |length: &usize| frame(&body[..*length], || chunk_len).len() == DIGITS / 2;
    (0..body.len()).rev().find(fills).expect("a body whose frame fills the line")
}

/// Whole bodies of other bytes each, framed in a line of their own.
fn lines(length: usize, chunk_len: usize) -> Vec<u8> {
    let hex = |value: u8| b"0123456789abcdef"[usize::from(value)];
    let mut lines = Vec::with_capacity(LINES * (DIGITS + 1));
    for body in random_body(LINES * length).chunks(length) {
        let frame = frame(body, || chunk_len);
        lines.extend(frame.iter().flat_map(|byte| [hex(byte >> 4), hex(byte & 0xF)]));
        lines.push(b'\n');
    }
    lines
}

fn command(program: &Path) -> io::Result<Command> {
    let mut command = Command::new(program);
    command.stdin(File::open(path(INPUT))?);
    Ok(command)
}

fn output(program: &Path) -> io::Result<Vec<u8>> {
    let output = command(program)?.output()?;
    assert!(output.status.success() && output.stderr.is_empty(), "{}", program.display());
    Ok(output.stdout)
}

/// From the program's start to its end; what it prints is thrown away.
fn time(program: &Path) -> Duration {
    let mut command = command(program).expect("the input");
    command.stdout(Stdio::null());
    let start = Instant::now();
    let status = command.status().expect("the program runs");
    let time = start.elapsed();
    assert!(status.success());
    time
}

fn compare(chunk_len: usize) -> io::Result<Ratio> {
    let length = body_length(chunk_len);
    fs::write(path(INPUT), lines(length, chunk_len))?;
    let (ours, plain) = (path(OURS), path(PLAIN));
    let expected = format!("C {} {length}\n", DIGITS / 2).repeat(LINES);
    for program in [&ours, &plain] {
        assert!(output(program)? == expected.as_bytes(), "{} prints something else", program.display());
    }
    let ratio = times_as_long(ROUNDS, &mut [&mut || time(&ours), &mut || time(&plain)])[0];
    fs::remove_file(path(INPUT))?;
    Ok(ratio)
}

pub fn print() {
    let (lines, digits) = (thousands(LINES), thousands(DIGITS));
    println!("The bench program on {lines} lines of {digits} hex digits, a whole body each:");
    println!("how many times as long ours takes as one in C, from its start to its end;");
    println!("medians of {ROUNDS} rounds, and quartiles.");
    let missing = [(OURS, "run `rt run` in crates/bench"), (PLAIN, "there is no `cc`")];
    if let Some((name, why)) = missing.into_iter().find(|(name, _)| !path(name).is_file()) {
        println!("skipped: {name} is missing, {why}");
        return;
    }
    println!("{:16} {:>26}", "chunk length", "against plain C");
    for chunk_len in [4_096, 64] {
        let ratio = compare(chunk_len).expect("a file below target/host");
        println!("{:16} {:>26}", thousands(chunk_len), ratio.to_string());
    }
}

#[cfg(test)]
mod tests {
    use super::*;

    #[test]
    fn bodies_fill_the_lines() {
        assert_eq!([4_096, 64].map(body_length), [4_096 + 0xFEC, 116 * 64 + 0x3D]);
    }
}
