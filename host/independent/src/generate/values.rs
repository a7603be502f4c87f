//! Header values: a meaning is drawn first, then spelled, so that two spellings of one meaning can be compared.

use super::{bodies, damage, dates, Kind, Rng};
use crate::delta::SECONDS_LIMIT;
use crate::url::PORT_LIMIT;
use crate::version::NUMBER_LIMIT;

const TOKEN: &[u8] = b"abcxyzABCXYZ0189!#$%&'*+-.^_`|~";
const LETTERS: &[u8] = b"abchtwzABCHTWZ";
const QUOTED: &[u8] = b"abcXYZ019 \t()<>@,;:/[]?={}\x80\xff\"\\";
const HOST: &[u8] = b"abzABZ09-.";
const PATH: &[u8] = b"abzABZ09-_.!~*'();/:@&=+$, #%\x00\xff";
const PATH_AS_SENT: &[u8] = b"-_.!~*'();/:@&=+$,";
const COMMENT: &[u8] = b"abcXYZ019 \t<>@,;:/[]?={}\"\x80\xff";
pub(super) const BLANKS: &[u8] = b" \t";
pub(super) const DIGITS: &[u8] = b"0123456789";

pub(super) fn value(kind: Kind, rng: &mut Rng) -> Vec<u8> {
    match kind {
        Kind::Version => version(numbers(rng), rng),
        Kind::Date => dates::date(rng),
        Kind::Delta => seconds(rng),
        Kind::Qvalue => qvalue(rng),
        Kind::Language => language(rng),
        Kind::EntityTag => entity_tag(&quoted_content(rng), rng),
        Kind::MediaType => Media::draw(rng).spell(rng),
        Kind::Products => products(rng),
        Kind::Url => UrlParts::draw(rng).spell(rng),
        Kind::Chunked => bodies::any_body(rng).0,
    }
}

/// Two inputs to compare: mostly two spellings of one meaning, at times a damaged or an unrelated second one; of a
/// media type also one with another value of one parameter.
/// Kinds that are not compared give two unrelated ones.
pub fn pair(kind: Kind, rng: &mut Rng) -> (Vec<u8>, Vec<u8>) {
    let (first, second) = two_spellings(kind, rng);
    match rng.below(8) {
        0 => (first, value(kind, rng)),
        1 => (first, damage(second, rng)),
        2 => (damage(first, rng), second),
        3 => (damage(first, rng), damage(second, rng)),
        _ => (first, second),
    }
}

fn two_spellings(kind: Kind, rng: &mut Rng) -> (Vec<u8>, Vec<u8>) {
    match kind {
        Kind::Version => {
            let numbers = numbers(rng);
            (version(numbers, rng), version(numbers, rng))
        }
        Kind::Language => {
            let tag = language(rng);
            (any_case(&tag, rng), any_case(&tag, rng))
        }
        Kind::EntityTag => {
            let content = quoted_content(rng);
            (entity_tag(&content, rng), entity_tag(&content, rng))
        }
        Kind::MediaType => {
            let mut media = Media::draw(rng);
            let first = media.spell(rng);
            media.change(rng);
            (first, media.spell(rng))
        }
        Kind::Url => {
            let url = UrlParts::draw(rng);
            (url.spell(rng), url.spell(rng))
        }
        _ => (value(kind, rng), value(kind, rng)),
    }
}

pub(super) fn any_case(text: &[u8], rng: &mut Rng) -> Vec<u8> {
    let flip = |byte: &u8| match rng.below(3) {
        0 => byte.to_ascii_lowercase(),
        1 => byte.to_ascii_uppercase(),
        _ => *byte,
    };
    text.iter().map(flip).collect()
}

/// A number at, near or far from its limit.
fn near(limit: u64, rng: &mut Rng) -> u64 {
    match rng.below(8) {
        0 => limit - rng.below(3) as u64,
        1 if rng.once_in(2) => limit + 1 + rng.below(3) as u64,
        1 => limit * 10,
        2 => rng.word() % (limit + 1),
        _ => rng.below(100) as u64,
    }
}

pub(super) fn spell_number(number: impl ToString, rng: &mut Rng) -> Vec<u8> {
    let zeros = if rng.once_in(4) { rng.below(6) } else { 0 };
    [vec![b'0'; zeros], number.to_string().into_bytes()].concat()
}

/// Seconds near their limit; at times those that wrap to few at 32 or 64 bits, or many digits.
fn seconds(rng: &mut Rng) -> Vec<u8> {
    match rng.below(12) {
        0 => {
            let multiple = (1 + rng.below(1_000) as u128) << rng.pick(&[32, 64]);
            spell_number(multiple + rng.below(100) as u128, rng)
        }
        1 => many_digits(rng),
        _ => spell_number(near(SECONDS_LIMIT, rng), rng),
    }
}

/// Up to some thousand digits: nines, any digits, or leading zeros and few others.
fn many_digits(rng: &mut Rng) -> Vec<u8> {
    let most = rng.pick(&[12, 40, 200, 3_000]);
    let zeros = if rng.once_in(2) { rng.below(most) } else { 0 };
    let behind = match rng.below(3) {
        0 => rng.string(b"9", 10, most),
        1 => rng.string(DIGITS, 10, most),
        _ => near(SECONDS_LIMIT, rng).to_string().into_bytes(),
    };
    [vec![b'0'; zeros], behind].concat()
}

/// The numbers of a version; one may be above its limit.
pub fn numbers(rng: &mut Rng) -> (u64, u64) {
    (near(NUMBER_LIMIT, rng), near(NUMBER_LIMIT, rng))
}

fn version((major, minor): (u64, u64), rng: &mut Rng) -> Vec<u8> {
    let name = any_case(b"HTTP/", rng);
    [name, spell_number(major, rng), b".".to_vec(), spell_number(minor, rng)].concat()
}

fn qvalue(rng: &mut Rng) -> Vec<u8> {
    let (whole, places): (_, &[u8]) = if rng.once_in(3) { (b'1', b"0") } else { (b'0', DIGITS) };
    let mut text = vec![whole];
    if !rng.once_in(4) {
        text.push(b'.');
        text.extend(rng.string(places, 0, 3));
    }
    text
}

fn language(rng: &mut Rng) -> Vec<u8> {
    let parts: Vec<_> = (0..1 + rng.below(4)).map(|_| rng.string(LETTERS, 1, 8)).collect();
    parts.join(&b'-')
}

/// Bytes for a quoted string or a comment, with pairs where they are needed and where they are not.
fn with_pairs(bytes: &[u8], marks: &[u8], rng: &mut Rng) -> Vec<u8> {
    let mut text = Vec::new();
    for &byte in bytes {
        if marks.contains(&byte) || (byte < 128 && rng.once_in(6)) {
            text.push(b'\\');
        }
        text.push(byte);
    }
    text
}

fn quote(bytes: &[u8], rng: &mut Rng) -> Vec<u8> {
    [b"\"".to_vec(), with_pairs(bytes, b"\"\\", rng), b"\"".to_vec()].concat()
}

fn quoted_content(rng: &mut Rng) -> Vec<u8> {
    let content = rng.string(QUOTED, 0, 12);
    with_pairs(&content, b"\"\\", rng)
}

fn entity_tag(content: &[u8], rng: &mut Rng) -> Vec<u8> {
    let weak: &[u8] = rng.pick(&[b"", b"", b"W/", b"w/"]);
    [weak, b"\"", content, b"\""].concat()
}

fn blanks(least: usize, rng: &mut Rng) -> Vec<u8> {
    rng.string(BLANKS, least, least + 1)
}

struct Media {
    main: Vec<u8>,
    subtype: Vec<u8>,
    parameters: Vec<(Vec<u8>, Vec<u8>)>,
}

impl Media {
    fn draw(rng: &mut Rng) -> Self {
        let main = if rng.once_in(2) { b"text".to_vec() } else { rng.string(TOKEN, 1, 6) };
        let count = if rng.once_in(8) { 14 + rng.below(5) } else { rng.below(4) };
        let parameter = |index| (Media::name(index, rng), Media::value(rng));
        let parameters = (0..count).map(parameter).collect();
        Media { main, subtype: rng.string(TOKEN, 1, 6), parameters }
    }

    /// Names differ by their index, but for a few repeated ones.
    fn name(index: usize, rng: &mut Rng) -> Vec<u8> {
        match rng.below(40) {
            0 => b"p0".to_vec(),
            1..=4 if index < 4 => b"charset".to_vec(),
            _ => format!("p{index}").into_bytes(),
        }
    }

    fn value(rng: &mut Rng) -> Vec<u8> {
        match rng.below(3) {
            0 => rng.string(QUOTED, 0, 8),
            1 => rng.pick(&[b"utf-8", b"UTF-8", b"UTF-7"]).to_vec(),
            _ => rng.string(TOKEN, 1, 5),
        }
    }

    /// At times another value of one parameter, or the same in another case.
    fn change(&mut self, rng: &mut Rng) {
        if !self.parameters.is_empty() && rng.once_in(4) {
            let at = rng.below(self.parameters.len());
            let value = &mut self.parameters[at].1;
            *value = if rng.once_in(2) { any_case(value, rng) } else { Media::value(rng) };
        }
    }

    fn spell(&self, rng: &mut Rng) -> Vec<u8> {
        let mut text = [any_case(&self.main, rng), b"/".to_vec(), any_case(&self.subtype, rng)].concat();
        let count = self.parameters.len();
        let first = if count > 0 && rng.once_in(2) { rng.below(count) } else { 0 };
        for index in 0..count {
            let (name, value) = &self.parameters[(first + index) % count];
            let folded = if name == b"charset" { any_case(value, rng) } else { value.clone() };
            let is_token = !folded.is_empty() && folded.iter().all(|byte| TOKEN.contains(byte));
            let value = if is_token && !rng.once_in(3) { folded } else { quote(&folded, rng) };
            let (before, after) = (blanks(0, rng), blanks(0, rng));
            text.extend([before, b";".to_vec(), after, any_case(name, rng), b"=".to_vec(), value].concat());
        }
        text
    }
}

fn comment(levels: usize, rng: &mut Rng) -> Vec<u8> {
    let mut text = b"(".to_vec();
    for _ in 0..rng.below(3) {
        let plain = rng.string(COMMENT, 0, 4);
        text.extend(with_pairs(&plain, b"", rng));
        if rng.once_in(4) {
            text.extend(rng.pick(&[b"\\(", b"\\)", b"\\\\"]));
        }
    }
    if levels > 1 {
        text.extend(comment(levels - 1, rng));
        if rng.once_in(3) {
            text.extend(comment(1 + rng.below(levels - 1), rng));
        }
    }
    text.push(b')');
    text
}

fn product(rng: &mut Rng) -> Vec<u8> {
    let mut text = rng.string(TOKEN, 1, 6);
    if rng.once_in(2) {
        text.push(b'/');
        text.extend(rng.string(TOKEN, 1, 4));
    }
    text
}

fn products(rng: &mut Rng) -> Vec<u8> {
    let mut text = Vec::new();
    let mut after_product = false;
    for index in 0..1 + rng.below(5) {
        let is_product = rng.once_in(2);
        if index > 0 {
            text.extend(blanks(usize::from(is_product && after_product), rng));
        }
        after_product = is_product;
        text.extend(match is_product {
            true => product(rng),
            false if rng.once_in(6) => comment(7 + rng.below(3), rng),
            false => comment(1 + rng.below(3), rng),
        });
    }
    text
}

struct UrlParts {
    host: Vec<u8>,
    port: Option<u64>,
    path: Option<Vec<u8>>,
    query: Option<Vec<u8>>,
}

impl UrlParts {
    fn draw(rng: &mut Rng) -> Self {
        let port = match rng.below(4) {
            0 => Some(near(PORT_LIMIT, rng)),
            1 => Some(80),
            _ => None,
        };
        let path = (!rng.once_in(4)).then(|| rng.string(PATH, 0, 12));
        let query = (path.is_some() && rng.once_in(2)).then(|| rng.string(PATH, 0, 8));
        UrlParts { host: rng.string(HOST, 1, 10), port, path, query }
    }

    fn spell(&self, rng: &mut Rng) -> Vec<u8> {
        let mut text = [any_case(b"http", rng), b"://".to_vec(), any_case(&self.host, rng)].concat();
        match self.port {
            Some(port) => text.extend([b":".to_vec(), spell_number(port, rng)].concat()),
            None => text.extend_from_slice(rng.pick(&[b"" as &[u8], b"", b":", b":80"])),
        }
        match &self.path {
            Some(path) => text.extend([b"/".to_vec(), escape(path, rng)].concat()),
            None => text.extend_from_slice(rng.pick(&[b"" as &[u8], b"/"])),
        }
        if let Some(query) = &self.query {
            text.push(b'?');
            text.extend(escape(query, rng));
        }
        text
    }
}

/// Escapes what cannot stand for itself, and some bytes that can.
fn escape(bytes: &[u8], rng: &mut Rng) -> Vec<u8> {
    let mut text = Vec::new();
    for &byte in bytes {
        let may_stand = byte.is_ascii_alphanumeric() || PATH_AS_SENT.contains(&byte);
        let spelled = match rng.below(6) {
            0 => format!("%{byte:02x}").into_bytes(),
            _ if may_stand => vec![byte],
            _ => format!("%{byte:02X}").into_bytes(),
        };
        text.extend(spelled);
    }
    text
}
