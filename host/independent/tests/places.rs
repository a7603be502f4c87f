//! The place of refusal 1, and what must hold of any input.

use independent::date;
use independent::generate::{any, at_limits, every, instant, pair, present_year, short, valid};
use independent::generate::{Kind, Rng, HEADER_KINDS};
use independent::grammar::{parse, Grammar};
use independent::number::{MALFORMED, VALUE_TOO_LONG};
use independent::{etag, language, media, url, version, Refusal, HEADER_LIMIT};
use std::collections::HashSet;

const ROUNDS: usize = 10_000;
const MANY_ROUNDS: usize = 200_000;

fn grammar(kind: Kind) -> &'static Grammar {
    kind.grammar().expect("a header value")
}

/// The longest live beginning can be completed: the completion is shown and read back.
fn completes(kind: Kind, input: &[u8]) -> Vec<u8> {
    let parsed = parse(grammar(kind), input);
    let completed = [&input[..parsed.live], &parsed.completion].concat();
    assert_eq!(parse(grammar(kind), &completed).end, Some(completed.len()), "{kind:?} {input:?}");
    assert_eq!(parsed.end.is_some(), parsed.live == input.len() && parsed.completion.is_empty());
    completed
}

/// No beginning of a well-formed string that was met anywhere in the family is longer than the live one.
#[test]
fn longest_live_beginnings_of_short_strings() {
    for kind in HEADER_KINDS {
        for family in short(kind) {
            let mut beginnings = HashSet::new();
            for input in every(*family) {
                let whole = completes(kind, &input);
                beginnings.extend((0..=whole.len()).map(|end| whole[..end].to_vec()));
            }
            for input in every(*family) {
                let known = (0..=input.len()).rev().find(|end| beginnings.contains(&input[..*end]));
                assert_eq!(Some(parse(grammar(kind), &input).live), known, "{kind:?} {input:?}");
            }
        }
    }
}

/// Refusals but 3, 4 and 13 depend on the bytes up to their place and on nothing after it.
fn refusal_depends_on_beginning(kind: Kind, input: &[u8], rng: &mut Rng) {
    let Some(refusal @ Refusal { number: 1 | 2 | 10 | 11 | 12, place }) = kind.refusal(input) else { return };
    if place == input.len() {
        return;
    }
    let after = input.len() - rng.below(input.len() - place);
    assert_eq!(kind.refusal(&input[..after]), Some(refusal), "{kind:?} {input:?}");
    let before = kind.refusal(&input[..place]);
    let ends_early = Some(Refusal { number: MALFORMED, place });
    assert!(before.is_none() || before == ends_early || kind == Kind::Date, "{kind:?} {input:?}");
}

fn random_inputs(rounds: usize) {
    for kind in HEADER_KINDS {
        let mut rng = Rng::new(kind as u64);
        for _ in 0..rounds {
            let input = any(kind, &mut rng);
            completes(kind, &input);
            refusal_depends_on_beginning(kind, &input, &mut rng);
        }
    }
}

#[test]
fn random_header_values() {
    random_inputs(ROUNDS);
}

#[test]
#[ignore = "about half a minute in release mode"]
fn many_random_header_values() {
    random_inputs(MANY_ROUNDS);
}

#[test]
fn header_values_at_limits() {
    for kind in HEADER_KINDS {
        let mut rng = Rng::new(kind as u64);
        for input in at_limits(kind) {
            let too_long = Some(Refusal { number: VALUE_TOO_LONG, place: HEADER_LIMIT });
            assert_eq!(kind.refusal(&input) == too_long, input.len() > HEADER_LIMIT);
            if input.len() <= HEADER_LIMIT {
                refusal_depends_on_beginning(kind, &input, &mut rng);
            }
        }
    }
}

/// What the generator calls valid is well-formed, and most of it is accepted.
#[test]
fn valid_values_are_well_formed() {
    for kind in HEADER_KINDS {
        let mut rng = Rng::new(1);
        let mut accepted = 0;
        for _ in 0..ROUNDS {
            let input = valid(kind, &mut rng);
            assert_eq!(parse(grammar(kind), &input).end, Some(input.len()), "{kind:?} {input:?}");
            accepted += usize::from(kind.refusal(&input).is_none());
        }
        assert!(accepted > ROUNDS / 2, "{kind:?} {accepted}");
    }
}

#[test]
fn comparisons_are_symmetric() {
    let mut rng = Rng::new(2);
    let mut equal = [0; 4];
    for _ in 0..ROUNDS {
        let (one, other) = pair(Kind::MediaType, &mut rng);
        symmetric(media::equal, &one, &other, &mut equal[0]);
        let (one, other) = pair(Kind::Url, &mut rng);
        symmetric(url::equal, &one, &other, &mut equal[1]);
        let (one, other) = pair(Kind::Language, &mut rng);
        symmetric(language::equal, &one, &other, &mut equal[2]);
        let (one, other) = pair(Kind::EntityTag, &mut rng);
        symmetric(etag::weak_match, &one, &other, &mut equal[3]);
        let (one, other) = pair(Kind::Version, &mut rng);
        let there = version::compare(&one, &other).ok();
        assert_eq!(there, version::compare(&other, &one).ok().map(|order| order.reverse()));
    }
    assert!(equal.iter().all(|count| *count > ROUNDS / 4), "{equal:?}");
}

type Comparison = fn(&[u8], &[u8]) -> Result<bool, independent::Refused>;

fn symmetric(compare: Comparison, one: &[u8], other: &[u8], equal: &mut usize) {
    let answer = compare(one, other).ok();
    assert_eq!(answer, compare(other, one).ok());
    *equal += usize::from(answer == Some(true));
}

/// With any present year.
#[test]
fn written_dates_are_read_back() {
    let mut rng = Rng::new(3);
    for _ in 0..ROUNDS {
        let (seconds, present_year) = (instant(&mut rng), present_year(&mut rng).clamp(1632, 9949));
        let inside = (date::EARLIEST..=date::LATEST).contains(&seconds);
        let written = date::write(seconds, date::LENGTH);
        assert_eq!(written.is_ok(), inside);
        if let Ok(text) = written {
            assert_eq!(date::read(&text, present_year).ok(), date::at(seconds));
        }
    }
}

/// Consecutive days have consecutive dates from the first to the last.
#[test]
fn every_day_follows_the_one_before() {
    const DAY: i64 = 86_400;
    let mut before = date::at(date::EARLIEST).expect("the first day");
    assert_eq!((before.year, before.month, before.day), (1583, 1, 1));
    for seconds in (date::EARLIEST + DAY..=date::LATEST).step_by(DAY as usize) {
        let today = date::at(seconds).expect("inside the range");
        let last = date::month_length(before.year.into(), before.month.into()) as u8;
        let next = match (before.day == last, before.month) {
            (false, month) => (before.year, month, before.day + 1),
            (true, 12) => (before.year + 1, 1, 1),
            (true, month) => (before.year, month + 1, 1),
        };
        assert_eq!((today.year, today.month, today.day), next);
        before = today;
    }
    assert_eq!((before.year, before.month, before.day), (9999, 12, 31));
}
