//! Seeded inputs of every kind: valid, damaged, cut, extended, at the limits, and all short strings.

mod bodies;
mod cuttings;
mod dates;
mod limits;
mod ranges;
mod trailers;
mod urls;
mod values;

pub use bodies::{any_body, body, frame, rooms};
pub use cuttings::{cuttings, every_cutting, pieces_of, quotas};
pub use dates::{instant, present_year, present_years, rfc850_date, two_digit_years};
pub use limits::at_limits;
pub use ranges::{
    capped_range_sets, content_range, counted_range_sets, damaged_range_set, entity_lengths, long_range_sets,
    range_set, short_range_sets,
};
pub use trailers::{
    allowed_name, allowed_names, body_with_names, forbidden_name, forbidden_names, trailers_with,
    trailers_with_each_byte,
};
pub use urls::{long_urls, other_url, readable_url, respelled_url};
pub use values::{numbers, pair};

use crate::grammar::Grammar;
use crate::{date, delta, etag, language, media, products, qvalue, url, version, Refusal};

/// The kinds of inputs that document 01 covers.
#[derive(Clone, Copy, Debug, PartialEq, Eq, Hash)]
pub enum Kind {
    Version,
    Date,
    Delta,
    Qvalue,
    Language,
    EntityTag,
    MediaType,
    Products,
    Url,
    Chunked,
}

pub const HEADER_KINDS: [Kind; 9] = [
    Kind::Version,
    Kind::Date,
    Kind::Delta,
    Kind::Qvalue,
    Kind::Language,
    Kind::EntityTag,
    Kind::MediaType,
    Kind::Products,
    Kind::Url,
];

impl Kind {
    /// The grammar of a header value.
    pub fn grammar(self) -> Option<&'static Grammar> {
        Some(match self {
            Kind::Version => version::grammar(),
            Kind::Date => date::grammar(),
            Kind::Delta => delta::grammar(),
            Kind::Qvalue => qvalue::grammar(),
            Kind::Language => language::grammar(),
            Kind::EntityTag => etag::grammar(),
            Kind::MediaType => media::grammar(),
            Kind::Products => products::grammar(),
            Kind::Url => url::grammar(),
            Kind::Chunked => return None,
        })
    }

    /// The refusal of a header value; of a date, with the present year of the old results.
    pub fn refusal(self, input: &[u8]) -> Option<Refusal> {
        match self {
            Kind::Version => version::read(input).err(),
            Kind::Date => date::read(input, date::OLD_RESULTS_YEAR).err(),
            Kind::Delta => delta::read(input).err(),
            Kind::Qvalue => qvalue::read(input).err(),
            Kind::Language => language::read(input).err(),
            Kind::EntityTag => etag::read(input).err(),
            Kind::MediaType => media::read(input).err(),
            Kind::Products => products::read(input).err(),
            Kind::Url => url::read(input).err(),
            Kind::Chunked => None,
        }
    }
}

/// SplitMix64: one seed gives one sequence on every machine.
pub struct Rng(u64);

impl Rng {
    pub fn new(seed: u64) -> Self {
        Rng(seed)
    }

    pub fn word(&mut self) -> u64 {
        self.0 = self.0.wrapping_add(0x9E37_79B9_7F4A_7C15);
        let mut mixed = self.0;
        mixed = (mixed ^ (mixed >> 30)).wrapping_mul(0xBF58_476D_1CE4_E5B9);
        mixed = (mixed ^ (mixed >> 27)).wrapping_mul(0x94D0_49BB_1331_11EB);
        mixed ^ (mixed >> 31)
    }

    /// From 0 to `bound` without it; `bound` is above 0.
    pub fn below(&mut self, bound: usize) -> usize {
        (self.word() % bound as u64) as usize
    }

    /// True once in `times` on average.
    pub fn once_in(&mut self, times: usize) -> bool {
        self.below(times) == 0
    }

    pub fn pick<T: Copy>(&mut self, from: &[T]) -> T {
        from[self.below(from.len())]
    }

    pub fn byte(&mut self) -> u8 {
        self.word() as u8
    }

    /// From `least` to `most` bytes of the alphabet.
    pub fn string(&mut self, alphabet: &[u8], least: usize, most: usize) -> Vec<u8> {
        let length = least + self.below(most - least + 1);
        (0..length).map(|_| self.pick(alphabet)).collect()
    }
}

/// Bytes that some rule of the document names.
const NOTABLE: &[u8] = b"\"\\()/;:=,-.?%&+@ \t\r\n\0\x7f\x80\xff0159afFgzAZHW*[]{}<>#_~!'";

fn notable(rng: &mut Rng) -> u8 {
    if rng.once_in(4) {
        rng.byte()
    } else {
        rng.pick(NOTABLE)
    }
}

/// An input of the kind that is well-formed; a limit may be broken and a date may not exist, both rarely.
pub fn valid(kind: Kind, rng: &mut Rng) -> Vec<u8> {
    values::value(kind, rng)
}

/// One or two bytes replaced, inserted, removed or doubled.
pub fn damage(mut input: Vec<u8>, rng: &mut Rng) -> Vec<u8> {
    for _ in 0..1 + rng.below(2) {
        let at = rng.below(input.len() + 1);
        let byte = notable(rng);
        match rng.below(4) {
            0 if at < input.len() => input[at] = byte,
            1 if at < input.len() => drop(input.remove(at)),
            2 if at < input.len() => input.insert(at, input[at]),
            _ => input.insert(at, byte),
        }
    }
    input
}

/// A beginning, which may be empty or all of the input.
pub fn cut(mut input: Vec<u8>, rng: &mut Rng) -> Vec<u8> {
    input.truncate(rng.below(input.len() + 1));
    input
}

/// Followed by some bytes, or by another input of the kind.
pub fn extend(mut input: Vec<u8>, kind: Kind, rng: &mut Rng) -> Vec<u8> {
    if rng.once_in(3) {
        input.extend(valid(kind, rng));
    } else {
        for _ in 0..1 + rng.below(4) {
            input.push(notable(rng));
        }
    }
    input
}

/// Valid, damaged, cut or extended.
pub fn any(kind: Kind, rng: &mut Rng) -> Vec<u8> {
    let input = valid(kind, rng);
    match rng.below(5) {
        0 => input,
        1 => cut(input, rng),
        2 => extend(input, kind, rng),
        3 => damage(input, rng),
        _ => {
            let damaged = damage(input, rng);
            cut(damaged, rng)
        }
    }
}

/// A beginning, the alphabet of what follows it, and the most bytes that follow.
pub type Short = (&'static [u8], &'static [u8], usize);

/// Families of short strings that together reach each rule of the kind.
pub fn short(kind: Kind) -> &'static [Short] {
    match kind {
        Kind::Version => &[(b"", b"HhTP/1.", 5), (b"HTTP/", b"0156. ", 6), (b"HTTP/6553", b"456.", 5)],
        Kind::Date => &[
            (b"", b"SunMode, ", 5),
            (b"Sun", b"day, N0", 5),
            (b"Sun, 06 ", b"NovJun 1", 5),
            (b"Sunday, 06-", b"JunalN-9", 5),
            (b"Sun Nov ", b" 0169:", 6),
            (b"Sun Nov  6 08:49:37 1994", b"4 G", 3),
            (b"Sun, 06 Nov 1994 ", b"0126:", 6),
            (b"Sunday, 06-Nov-94 08:49:37 ", b"GMTm ", 5),
        ],
        Kind::Delta => &[(b"", b"0129 -", 5), (b"21474836", b"4789", 4), (b"000214748364", b"0789 +", 4)],
        Kind::Qvalue => &[(b"", b"01.592", 6)],
        Kind::Language => &[(b"", b"aZ-1", 7), (b"abcdef", b"gh-", 6)],
        Kind::EntityTag => &[(b"", b"Ww/\"\\a\x80", 6), (b"W/\"", b"\"\\a\x7f\t\xff", 5)],
        Kind::MediaType => {
            &[(b"", b"a/; =x", 6), (b"a/b;x=1", b";xX=\" \\1", 6), (b"text/c", b";=x\" \t", 5)]
        }
        Kind::Products => &[(b"", b"a/ ()\\\x80", 6), (b"((((((", b"(())a", 5), (b"a(", b"()\\ a", 6)],
        Kind::Url => &[
            (b"", b"hHtp:/a", 6),
            (b"http://", b"a:/?.", 6),
            (b"http://a", b":/?%8aG#", 6),
            (b"http://a:655", b"3456/", 4),
        ],
        Kind::Chunked => &[
            (b"", b"012;=\"\\a:\r\n", 5),
            (b"0\r\n", b"a:\r\n \0", 6),
            (b"2\r\n", b"a0\r\n", 7),
            (b"1;a", b"=;\"\\a\r\x80", 6),
            (b"0\r\nTraile", b"rR:s\r\n", 5),
            (b"0\r\nCONTENT-leng", b"tTHh:", 5),
            (b"0\r\nA:\r\ntransfer-encodin", b"gG: \r\n", 4),
        ],
    }
}

/// Every string of a family, shorter ones first.
pub fn every((stem, alphabet, longest): Short) -> impl Iterator<Item = Vec<u8>> {
    let counts = (0..=longest).map(move |length| (length, alphabet.len().pow(length as u32)));
    counts.flat_map(move |(length, count)| {
        (0..count).map(move |index| {
            let mut string = stem.to_vec();
            let mut left = index;
            for _ in 0..length {
                string.push(alphabet[left % alphabet.len()]);
                left /= alphabet.len();
            }
            string
        })
    })
}
