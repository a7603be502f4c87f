//! Refusals as errors: the number, the place and the words of each.

mod common;

use common::at;
use quizotepec::{delta_read, language_equal, Refusal, Refused, Which};
use std::error::Error;

/// The table of document 01, in its order, and 14 and 15 of document 02.
const MEANINGS: [&str; 15] = [
    "malformed",
    "number above its limit",
    "no such date or time",
    "day name disagrees with the date",
    "chunk line above 1,024 bytes",
    "trailer above 8,192 bytes",
    "body too large",
    "output too short",
    "argument outside its range",
    "more than 16 parameters or byte ranges",
    "attribute repeated",
    "comment nested deeper than 8",
    "header value or normal form above 8,192 bytes",
    "framed body above 1,099,511,627,776 bytes",
    "field that a trailer must not hold",
];

#[test]
fn each_has_its_number_its_place_and_its_words() {
    for (number, meaning) in (1..).zip(MEANINGS) {
        let place = 100 + usize::from(number);
        let refusal = at(number, place);
        assert_eq!((refusal.number(), refusal.place(), refusal.meaning()), (number, place, meaning));
        assert_eq!(refusal.to_string(), format!("{meaning}, at {place} (refusal {number})"));
    }
}

#[test]
fn an_unknown_one_stays_visible() {
    let refusal = Refusal::Unknown { number: 200, place: 5 };
    assert_eq!((refusal.number(), refusal.place()), (200, 5));
    assert_eq!(refusal.to_string(), "refused, at 5 (refusal 200)");
}

#[test]
fn a_comparison_names_its_source() {
    for (first, second, which, words) in [
        (&b"en-"[..], &b"en"[..], Which::First, "the first: malformed, at 3 (refusal 1)"),
        (b"en", b"en-", Which::Second, "the second: malformed, at 3 (refusal 1)"),
    ] {
        let refused = language_equal(first, second).unwrap_err();
        assert_eq!(refused, Refused { which, refusal: Refusal::Malformed { place: 3 } });
        assert_eq!(refused.to_string(), words);
        let source = refused.source().and_then(|source| source.downcast_ref::<Refusal>());
        assert_eq!(source, Some(&refused.refusal));
        assert!(refused.refusal.source().is_none());
    }
}

/// What `?` asks of an error in a program with threads.
#[test]
fn both_pass_through_a_box() {
    fn number(value: &[u8]) -> Result<u32, Box<dyn Error + Send + Sync>> {
        language_equal(b"en", b"en")?;
        Ok(delta_read(value)?.value)
    }
    assert_eq!(number(b"1").unwrap(), 1);
    assert_eq!(number(b"1x").unwrap_err().to_string(), "malformed, at 1 (refusal 1)");
}
