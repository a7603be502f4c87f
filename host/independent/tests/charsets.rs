//! The two calls for the charset of a media type (request v), judged by the parts that the reader gives.

use independent::generate::{any, at_limits, every, short, Kind, Rng};
use independent::media::{self, Charset};
use independent::Refusal;
use std::collections::{BTreeMap, HashSet};

const ROUNDS: usize = 20_000;
/// Of each sort, among the random inputs.
const FEWEST: usize = ROUNDS / 100;

/// What an input is to the two calls; their answers differ for the last sort alone.
#[derive(Clone, Copy, Debug, PartialEq, Eq, PartialOrd, Ord)]
enum Sort {
    Refused,
    TextStated,
    OtherStated,
    OtherBare,
    TextBare,
}

type Answer = Result<Charset, Refusal>;

/// All spellings of a word in small letters and capitals, written out so that comparing needs no folding.
fn spellings(word: &[u8]) -> HashSet<Vec<u8>> {
    word.iter().fold(HashSet::from([Vec::new()]), |beginnings, letter| {
        let longer = |beginning: &Vec<u8>| {
            [*letter, letter.to_ascii_uppercase()].map(|next| [&beginning[..], &[next]].concat())
        };
        beginnings.iter().flat_map(longer).collect()
    })
}

struct Judge {
    texts: HashSet<Vec<u8>>,
    charsets: HashSet<Vec<u8>>,
}

impl Judge {
    fn new() -> Self {
        let judge = Judge { texts: spellings(b"text"), charsets: spellings(b"charset") };
        assert_eq!((judge.texts.len(), judge.charsets.len()), (1 << 4, 1 << 7));
        judge
    }

    /// The sort, then what the plain call answers, then what the one does that assumes ISO-8859-1.
    fn expected(&self, input: &[u8]) -> (Sort, Answer, Answer) {
        let read = match media::read(input) {
            Ok(read) => read,
            Err(refusal) => return (Sort::Refused, Err(refusal), Err(refusal)),
        };
        let mut charsets = read.parameters;
        charsets.retain(|parameter| self.charsets.contains(parameter.attribute.of(input)));
        match (&charsets[..], self.texts.contains(read.main.of(input))) {
            ([], true) => (Sort::TextBare, Ok(Charset::Absent), Ok(Charset::TextDefault)),
            ([], false) => (Sort::OtherBare, Ok(Charset::Absent), Ok(Charset::Absent)),
            ([stated], is_text) => {
                let answer = Ok(Charset::Given { value: stated.value, quoted: stated.quoted });
                (if is_text { Sort::TextStated } else { Sort::OtherStated }, answer, answer)
            }
            _ => panic!("two charsets, against row 11: {input:?}"),
        }
    }

    fn judge(&self, input: &[u8]) -> Sort {
        let (sort, plain, assuming) = self.expected(input);
        assert_eq!(media::effective_charset(input), plain, "{sort:?} {input:?}");
        assert_eq!(media::charset_assuming_iso_8859_1(input), assuming, "{sort:?} {input:?}");
        sort
    }
}

/// Judges each input, and counts those of each sort.
fn judge(inputs: impl IntoIterator<Item = Vec<u8>>) -> BTreeMap<Sort, usize> {
    let judge = Judge::new();
    let mut met = BTreeMap::new();
    for input in inputs {
        *met.entry(judge.judge(&input)).or_default() += 1;
    }
    met
}

#[test]
fn random_media_types() {
    let mut rng = Rng::new(1);
    let met = judge((0..ROUNDS).map(|_| any(Kind::MediaType, &mut rng)));
    for sort in [Sort::Refused, Sort::TextStated, Sort::OtherStated, Sort::OtherBare, Sort::TextBare] {
        assert!(met.get(&sort) > Some(&FEWEST), "{sort:?}, {met:?}");
    }
}

/// None of them has a charset.
#[test]
fn media_types_at_limits_and_short_ones() {
    let short = short(Kind::MediaType).iter().flat_map(|family| every(*family));
    let met = judge(at_limits(Kind::MediaType).into_iter().chain(short));
    assert!(met.into_keys().eq([Sort::Refused, Sort::OtherBare, Sort::TextBare]));
}

/// The word with one byte replaced by any of the 256, at each place.
fn replaced<'a>(head: &'a str, word: &'a str, tail: &'a str) -> impl Iterator<Item = Vec<u8>> + 'a {
    let places = (0..word.len()).flat_map(|at| (0..=255).map(move |byte| (at, byte)));
    places.map(move |(at, byte)| {
        let mut input = [head, word, tail].concat().into_bytes();
        input[head.len() + at] = byte;
        input
    })
}

/// At each place two bytes spell the letter, 75 other token bytes make another word, and 179 are malformed.
#[test]
fn types_beside_text() {
    let counts = |text, other| BTreeMap::from([(Sort::Refused, 4 * 179), (text, 4 * 2), (other, 4 * 75)]);
    assert_eq!(judge(replaced("", "text", "/b;a=c")), counts(Sort::TextBare, Sort::OtherBare));
    assert_eq!(judge(replaced("", "text", "/b;charset=c")), counts(Sort::TextStated, Sort::OtherStated));
}

/// As with types; besides, the two blanks may stand in place of the first letter and leave another word.
#[test]
fn attributes_beside_charset() {
    let counts =
        |stated, bare| BTreeMap::from([(Sort::Refused, 7 * 179 - 2), (stated, 7 * 2), (bare, 7 * 75 + 2)]);
    assert_eq!(judge(replaced("TEXT/b;", "charset", "=c")), counts(Sort::TextStated, Sort::TextBare));
    assert_eq!(judge(replaced("image/b;", "charset", "=c")), counts(Sort::OtherStated, Sort::OtherBare));
}
