//! Decimal numbers under a cap, at the limits of one digit up to those of 64 bits.

use independent::delta::{self, Seconds};
use independent::generate::Rng;
use independent::rules::{number_capped, Capped};
use independent::Span;

const ROUNDS: usize = 20_000;
/// Far from every limit here, so that it is no other number by chance.
const CAP: u64 = 77_777;
/// The largest last byte of a range (request iv).
const RANGE_LIMIT: u64 = (1 << 63) - 1;
const LIMITS: [u64; 10] = [0, 1, 9, 10, 99, 65_535, 2_147_483_647, RANGE_LIMIT, u64::MAX - 1, u64::MAX];

fn read(digits: &str, limit: u64, cap: u64) -> Capped {
    number_capped(digits.as_bytes(), Span { start: 0, length: digits.len() }, limit, cap)
}

fn itself(value: u64) -> Capped {
    Capped { value, capped: false }
}

const CAPPED: Capped = Capped { value: CAP, capped: true };

#[test]
fn both_sides_of_each_limit() {
    for (limit, above) in [
        (0, "1"),
        (9, "10"),
        (10, "11"),
        (65_535, "65536"),
        (2_147_483_647, "2147483648"),
        (RANGE_LIMIT, "9223372036854775808"),
        (u64::MAX, "18446744073709551616"),
    ] {
        assert_eq!(read(&limit.to_string(), limit, CAP), itself(limit));
        assert_eq!(read(&format!("000{limit}"), limit, CAP), itself(limit));
        assert_eq!(read(above, limit, CAP), CAPPED, "{limit}");
        assert_eq!(read(&format!("000{above}"), limit, CAP), CAPPED, "{limit}");
    }
}

#[test]
fn range_numbers_are_capped_to_their_limit() {
    let read = |digits: &str| read(digits, RANGE_LIMIT, RANGE_LIMIT);
    assert_eq!(read("9223372036854775806"), itself(RANGE_LIMIT - 1));
    assert_eq!(read("9223372036854775807"), itself(RANGE_LIMIT));
    assert_eq!(read("9223372036854775808"), Capped { value: RANGE_LIMIT, capped: true });
    assert_eq!(read("18446744073709551617"), Capped { value: RANGE_LIMIT, capped: true });
}

/// Numbers near the limit, and ten times it, against their arithmetic in 128 bits.
#[test]
fn near_each_limit() {
    for limit in LIMITS.map(u128::from) {
        let numbers = (limit.saturating_sub(20)..=limit + 20).chain(limit * 10..=limit * 10 + 20);
        for number in numbers.chain(0..=20) {
            let expected = if number > limit { CAPPED } else { itself(number as u64) };
            assert_eq!(read(&number.to_string(), limit as u64, CAP), expected, "{number} to {limit}");
        }
    }
}

#[test]
fn many_digits() {
    let (zeros, nines) = ("0".repeat(8_000), "9".repeat(8_000));
    for limit in LIMITS {
        assert_eq!(read(&zeros, limit, CAP), itself(0));
        assert_eq!(read(&format!("{zeros}{limit}"), limit, CAP), itself(limit));
        assert_eq!(read(&nines, limit, CAP), CAPPED);
        assert_eq!(read(&format!("{zeros}{}", u128::from(limit) + 1), limit, CAP), CAPPED);
        assert_eq!(read(&format!("1{zeros}"), limit, CAP), CAPPED);
    }
}

/// The digits of a part are read, and none around it.
#[test]
fn parts_of_an_input() {
    let part = |start, length| number_capped(b"9-65535-65536", Span { start, length }, 65_535, CAP);
    assert_eq!(part(2, 5), itself(65_535));
    assert_eq!(part(8, 5), CAPPED);
    assert_eq!(part(9, 4), itself(5_536));
}

#[test]
fn random_numbers() {
    let mut rng = Rng::new(1);
    for _ in 0..ROUNDS {
        let draw = |rng: &mut Rng| rng.word() >> rng.below(64);
        let (number, limit) = (draw(&mut rng), draw(&mut rng));
        let digits = format!("{}{number}", "0".repeat(rng.below(30)));
        let expected = if number > limit { CAPPED } else { itself(number) };
        assert_eq!(read(&digits, limit, CAP), expected, "{digits} to {limit}");
        let capped = number > 2_147_483_647;
        let value = if capped { 2_147_483_648 } else { number as u32 };
        assert_eq!(delta::read(digits.as_bytes()), Ok(Seconds { value, capped }), "{digits}");
    }
}
