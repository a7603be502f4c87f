//! Chunked bodies, and bytes with a chunk length for the writer.

use super::trailers::{allowed_name, forbidden_name, named_line};
use super::Rng;

const EXTENSIONS: &[&[u8]] = &[b";a", b";a=b", b";a=\"\"", b";x1=\"q;\\\"\t\xff\"", b";a;b;c=d", b";!=*"];
const TRAILER_LINES: &[&[u8]] = &[b"A:\r\n", b"Expires: 0\r\n", b"x:\t\x80:\xff\r\n", b"A:b: c\r\n"];
/// Bytes of data that look like framing.
const DATA: &[u8] = b"0\r\n\r\n0\r\n;a5\x00\xff";
const LAST_LINES: &[&[u8]] = &[b"0", b"0", b"0", b"00", b"0000000000000000000"];

fn size_line(size: usize, rng: &mut Rng) -> Vec<u8> {
    let digits = if rng.once_in(2) { format!("{size:x}") } else { format!("{size:X}") };
    let zeros = if rng.once_in(5) { rng.below(20) } else { 0 };
    [vec![b'0'; zeros], digits.into_bytes()].concat()
}

fn line_end(rng: &mut Rng) -> Vec<u8> {
    let extension: &[u8] = if rng.once_in(4) { rng.pick(EXTENSIONS) } else { b"" };
    [extension, b"\r\n"].concat()
}

/// A trailer line that no rule forbids.
fn allowed_line(rng: &mut Rng) -> Vec<u8> {
    if rng.once_in(4) {
        let name = allowed_name(rng);
        return named_line(&name, rng);
    }
    rng.pick(TRAILER_LINES).to_vec()
}

/// A trailer line; once in eight it has a name that no trailer may hold.
fn any_line(rng: &mut Rng) -> Vec<u8> {
    if rng.once_in(8) {
        let name = forbidden_name(rng);
        return named_line(&name, rng);
    }
    allowed_line(rng)
}

/// A chunked body that is whole in enough room, and the length of its data.
pub fn body(rng: &mut Rng) -> (Vec<u8>, usize) {
    with_lines(allowed_line, rng)
}

/// A chunked body that may break the limit on names in its trailer, and the length of its data.
pub fn any_body(rng: &mut Rng) -> (Vec<u8>, usize) {
    with_lines(any_line, rng)
}

fn with_lines(trailer_line: fn(&mut Rng) -> Vec<u8>, rng: &mut Rng) -> (Vec<u8>, usize) {
    let (mut input, mut length) = (Vec::new(), 0);
    for _ in 0..rng.below(5) {
        let most = rng.pick(&[1, 6, 20, 40]);
        let data = rng.string(DATA, 1, most);
        input.extend(size_line(data.len(), rng));
        input.extend(line_end(rng));
        input.extend_from_slice(&data);
        input.extend_from_slice(b"\r\n");
        length += data.len();
    }
    input.extend_from_slice(rng.pick(LAST_LINES));
    input.extend(line_end(rng));
    while rng.once_in(4) {
        input.extend(trailer_line(rng));
    }
    input.extend_from_slice(b"\r\n");
    (input, length)
}

/// Rooms on both sides of the line for a body of this length.
pub fn rooms(length: usize) -> Vec<usize> {
    let mut rooms = vec![0, 1, length / 2, length.saturating_sub(1), length, length + 1, 2 * length + 100];
    rooms.sort_unstable();
    rooms.dedup();
    rooms
}

/// Arguments of the chunked writer: a body, a chunk length and the length of the output.
pub fn frame(rng: &mut Rng) -> (Vec<u8>, usize, usize) {
    let body = rng.string(DATA, 0, 64);
    let chunk_len = match rng.below(8) {
        0 => 0,
        1 => usize::MAX,
        2 => body.len(),
        3 => body.len() + 1,
        _ => 1 + rng.below(20),
    };
    let needed = crate::chunked::encode(&body, chunk_len, usize::MAX).map_or(0, |bytes| bytes.len());
    let out_len = match rng.below(6) {
        0 => 0,
        1 => needed.saturating_sub(1),
        2 => needed,
        3 => needed + 1,
        _ => rng.below(needed + 100),
    };
    (body, chunk_len, out_len)
}
