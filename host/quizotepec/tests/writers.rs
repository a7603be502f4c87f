//! Writers against the independent implementation: the answer, every lent byte and those around.

mod common;

use common::{at, date_of, lend, whole, writes, RANDOM};
use independent::date::{EARLIEST, LATEST, LENGTH};
use independent::generate::{content_range, frame, instant, numbers, present_year, Rng};
use independent::number::{ARGUMENT_OUT_OF_RANGE, BODY_TOO_LARGE, OUTPUT_TOO_SHORT};
use independent::ranges::{write_content_range, NUMBER_LIMIT};
use independent::{chunked, date, qvalue, version};
use quizotepec::{
    chunked_decode, chunked_encode, content_range_write, date_read, date_write, qvalue_write, version_write,
    Pieces, Range, Version, FIRST_PRESENT_YEAR, LAST_PRESENT_YEAR,
};

/// The longest version has 16 bytes, the longest qvalue 5, the longest Content-Range value 65.
const VERSION_ROOM: usize = 20;
const QVALUE_ROOM: usize = 8;
const CONTENT_RANGE_ROOM: usize = 67;
const DAY_SECONDS: i64 = 86_400;
/// How many bytes a body has at most in the test of every chunk length.
const SHORT_BODY: usize = 24;

fn version_agrees(major: u32, minor: u32, room: usize) {
    let expected = version::write(major.into(), minor.into(), room);
    writes(expected, room, |out| version_write(Version { major, minor }, out), (major, minor));
}

fn content_range_agrees(first: u64, last: u64, length: u64, room: usize) {
    let expected = write_content_range(first, last, length, room);
    writes(
        expected,
        room,
        |out| content_range_write(Range { first, last }, length, out),
        (first, last, length),
    );
}

fn date_agrees(seconds: i64, room: usize) {
    writes(date::write(seconds, room), room, |out| date_write(seconds, out), seconds);
}

fn frame_agrees(body: &[u8], chunk_len: usize, room: usize) {
    let expected = chunked::encode(body, chunk_len, room);
    writes(expected, room, |out| chunked_encode(body, chunk_len, out), (body, chunk_len));
}

#[test]
fn versions() {
    let near =
        [0, 1, 9, 10, 99, 100, 999, 1_000, 9_999, 10_000, 65_534, 65_535, 65_536, 65_537, 131_072, u32::MAX];
    for major in near {
        for minor in near {
            (0..=VERSION_ROOM).for_each(|room| version_agrees(major, minor, room));
        }
    }
    (0..=65_600).for_each(|number| version_agrees(number, 65_600 - number, VERSION_ROOM));
}

#[test]
fn random_versions() {
    let mut rng = Rng::new(21);
    for _ in 0..RANDOM {
        let (major, minor) = numbers(&mut rng);
        version_agrees(major as u32, minor as u32, rng.below(VERSION_ROOM));
    }
}

#[test]
fn every_qvalue() {
    for thousandths in 0..=u16::MAX {
        for room in 0..=QVALUE_ROOM {
            let expected = qvalue::write(thousandths.into(), room);
            writes(expected, room, |out| qvalue_write(thousandths, out), thousandths);
        }
    }
}

#[test]
fn content_ranges_in_every_room() {
    let near = |middle: u64| (0..=2).map(move |by| middle - 1 + by);
    let middles = [1, 10, 100, 1 << 32, NUMBER_LIMIT, u64::MAX - 1];
    let numbers: Vec<u64> = middles.into_iter().flat_map(near).collect();
    for &first in &numbers {
        for &last in &numbers {
            for &length in &numbers {
                (0..=CONTENT_RANGE_ROOM).for_each(|room| content_range_agrees(first, last, length, room));
            }
        }
    }
}

#[test]
fn random_content_ranges() {
    let mut rng = Rng::new(25);
    for _ in 0..RANDOM {
        let (first, last, length, room) = content_range(&mut rng);
        content_range_agrees(first, last, length, room);
    }
}

#[test]
fn instants_at_both_ends_in_every_room() {
    let near = |middle: i64| (-2..=2).map(move |by| middle.saturating_add(by));
    let middles =
        [i64::MIN, i64::MIN / 2, EARLIEST, -DAY_SECONDS, 0, DAY_SECONDS, LATEST, i64::MAX / 2, i64::MAX];
    for seconds in middles.into_iter().flat_map(near) {
        (0..=LENGTH + 2).for_each(|room| date_agrees(seconds, room));
    }
}

/// Each day of the range, at a second that changes from day to day.
#[test]
fn every_day() {
    let days = (EARLIEST..=LATEST).step_by(DAY_SECONDS as usize);
    days.enumerate()
        .for_each(|(index, start)| date_agrees(start + index as i64 * 7_919 % DAY_SECONDS, LENGTH));
}

#[test]
fn random_instants() {
    let mut rng = Rng::new(23);
    for _ in 0..RANDOM {
        let seconds = if rng.once_in(20) { rng.word() as i64 } else { instant(&mut rng) };
        date_agrees(seconds, LENGTH - 1 + rng.below(3));
    }
}

/// What is written reads back as the instant, in whatever present year a date is read.
#[test]
fn dates_read_back() {
    let mut rng = Rng::new(31);
    for _ in 0..RANDOM {
        let seconds = instant(&mut rng).clamp(EARLIEST, LATEST);
        let year = present_year(&mut rng);
        let mut text = [0; LENGTH];
        assert_eq!(date_write(seconds, &mut text), Ok(LENGTH));
        let expected = match year {
            FIRST_PRESENT_YEAR..=LAST_PRESENT_YEAR => Ok(date_of(date::at(seconds).expect("a date"))),
            _ => Err(at(ARGUMENT_OUT_OF_RANGE, 0)),
        };
        assert_eq!(date_read(&text, year), expected, "{seconds} in {year}");
    }
}

#[test]
fn short_bodies_in_every_room() {
    let bytes: Vec<u8> = (0..SHORT_BODY as u8).map(|at| at.wrapping_mul(53)).collect();
    for length in 0..=SHORT_BODY {
        let body = &bytes[..length];
        for chunk_len in (0..=length + 2).chain([usize::MAX - 1, usize::MAX]) {
            let needed = chunked::encode(body, chunk_len, usize::MAX).map_or(0, |frame| frame.len());
            (0..=needed + 2).for_each(|room| frame_agrees(body, chunk_len, room));
        }
    }
}

#[test]
fn longer_bodies() {
    let body = vec![0x5A; 70_000];
    for length in [255, 256, 257, 4_095, 4_096, 4_097, 65_535, 65_536, 65_537, 70_000] {
        for chunk_len in [1, 15, 16, 17, 255, 256, 4_096, 65_536, length - 1, length, length + 1] {
            let needed =
                chunked::encode(&body[..length], chunk_len, usize::MAX).map_or(0, |frame| frame.len());
            [needed - 1, needed, needed + 1]
                .into_iter()
                .for_each(|room| frame_agrees(&body[..length], chunk_len, room));
        }
    }
}

/// The pages of this body are never touched: each answer is a refusal.
#[test]
fn the_largest_body() {
    let body = vec![0; chunked::BODY_LIMIT + 1];
    let encode = |body: &[u8], chunk_len| lend(1, |out| chunked_encode(body, chunk_len, out), |_| Vec::new());
    let refused = |number| Err(at(number, 0));
    assert_eq!(encode(&body, 0), refused(ARGUMENT_OUT_OF_RANGE));
    assert_eq!(encode(&body, 1 << 20), refused(BODY_TOO_LARGE));
    assert_eq!(encode(&body[1..], 1 << 20), refused(OUTPUT_TOO_SHORT));
}

#[test]
fn random_frames() {
    let mut rng = Rng::new(22);
    for _ in 0..RANDOM {
        let (body, chunk_len, room) = frame(&mut rng);
        frame_agrees(&body, chunk_len, room);
    }
}

/// Both readers give the body back, and no trailer before the closing CRLF.
#[test]
fn frames_read_back() {
    let mut rng = Rng::new(24);
    for _ in 0..RANDOM / 10 {
        let (body, chunk_len, _) = frame(&mut rng);
        let chunk_len = chunk_len.max(1);
        let needed = chunked::encode(&body, chunk_len, usize::MAX).expect("a frame").len();
        let mut frame = vec![0; needed];
        assert_eq!(chunked_encode(&body, chunk_len, &mut frame), Ok(needed));
        let read = |out: &mut [u8]| chunked_decode(&frame, out);
        assert_eq!(lend(body.len(), read, |_| body.clone()), whole(needed, body.len()));
        let read = |out: &mut [u8]| Pieces::new(out).feed(&frame).answer;
        assert_eq!(lend(body.len(), read, |_| body.clone()), whole(needed, body.len()));
    }
}
