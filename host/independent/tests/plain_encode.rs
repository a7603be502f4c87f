//! The plain writer of chunked bodies, which is for speed, against the one from the rules.

use independent::chunked::{encode, BODY_LIMIT};
use independent::generate::{frame, Rng};
use independent::number::{ARGUMENT_OUT_OF_RANGE, BODY_TOO_LARGE, OUTPUT_TOO_SHORT};
use independent::plain::plain_encode;
use independent::Refusal;

const ROUNDS: usize = 20_000;
const LENT: u8 = 0xA5;

/// Both answer alike; the plain one writes at the front, keeps the rest, and writes no refusal.
fn agree(body: &[u8], chunk_len: usize, out_len: usize) {
    let expected = encode(body, chunk_len, out_len);
    let mut out = vec![LENT; out_len];
    let plain = plain_encode(body, chunk_len, &mut out);
    let sizes = (body.len(), chunk_len, out_len);
    assert_eq!(plain, expected.as_ref().map(Vec::len).map_err(|refusal| *refusal), "{sizes:?}");
    let written = expected.unwrap_or_default();
    let (front, rest) = out.split_at(written.len());
    assert_eq!(front, written, "{sizes:?}");
    assert!(rest.iter().all(|byte| *byte == LENT), "{sizes:?}");
}

fn bytes(length: usize) -> Vec<u8> {
    (0..length).map(|index| index as u8).collect()
}

#[test]
fn random_frames() {
    let mut rng = Rng::new(1);
    for _ in 0..ROUNDS {
        let (body, chunk_len, out_len) = frame(&mut rng);
        agree(&body, chunk_len, out_len);
    }
}

/// Every short body in every chunk length, in every output up to two bytes more than needed.
#[test]
fn short_bodies() {
    for (length, chunk_len) in (0..=20).flat_map(|length| (0..=22).map(move |chunk_len| (length, chunk_len)))
    {
        let body = bytes(length);
        let needed = encode(&body, chunk_len, usize::MAX).map_or(0, |frame| frame.len());
        (0..=needed + 2).for_each(|out_len| agree(&body, chunk_len, out_len));
    }
}

/// Sizes on both sides of another digit, as full chunks and as what remains.
#[test]
fn longer_sizes() {
    for size in [15, 16, 17, 255, 256, 257, 4_095, 4_096, 65_535, 65_536, 1_048_575, 1_048_576] {
        let body = bytes(2 * size + 16);
        for chunk_len in [size, body.len() - size, body.len(), body.len() + 1, usize::MAX] {
            let needed = encode(&body, chunk_len, usize::MAX).map_or(0, |frame| frame.len());
            (needed - 2..=needed + 2).for_each(|out_len| agree(&body, chunk_len, out_len));
        }
    }
}

/// Writers: 9, 7, 8. The longest body is not written here, only found too long for the output.
#[test]
fn order_of_refusals() {
    let refused = |number| Err(Refusal { number, place: 0 });
    let mut out = [LENT; 4];
    let body = vec![0; BODY_LIMIT + 1];
    agree(&body, 0, 4);
    agree(&body, 1, 4);
    assert_eq!(plain_encode(&body, 0, &mut out), refused(ARGUMENT_OUT_OF_RANGE));
    assert_eq!(plain_encode(&body, 1, &mut out), refused(BODY_TOO_LARGE));
    for chunk_len in [1, BODY_LIMIT, usize::MAX] {
        assert_eq!(plain_encode(&body[1..], chunk_len, &mut out), refused(OUTPUT_TOO_SHORT));
    }
    assert_eq!(plain_encode(b"", 1, &mut out), refused(OUTPUT_TOO_SHORT));
    assert_eq!(out, [LENT; 4]);
}
