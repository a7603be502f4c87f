//! Readable URLs, other spellings of one URL, URLs that differ from it by little, and long ones.

use super::limits::padded;
use super::values::{any_case, spell_number};
use super::Rng;
use crate::url::PORT_LIMIT;
use std::ops::RangeInclusive;

const HOST: &[u8] = b"abhzABHZ0189-.";
const MARKS: &[u8] = b"-_.!~*'()";
/// A sample of the letters and digits, the ends of their ranges among them, and all marks.
const UNRESERVED: &[u8] = b"aefgzAEFGZ0189-_.!~*'()";
const RESERVED: &[u8] = b";/:@&=+$,";
const QUERY_MARK: u8 = b'?';
const HEX_DIGITS: &[u8] = b"0123456789abcdefABCDEF";
const DEFAULT_PORT: u64 = 80;
/// How port 80 may be left unsaid, or said.
const DEFAULT_PORTS: [Option<&[u8]>; 6] =
    [None, Some(b""), Some(b"80"), Some(b"080"), Some(b"0080"), Some(b"0000000080")];
/// The ends of the range, numbers next to 80, and numbers with the digits of 80.
const NOTABLE_PORTS: [u64; 11] = [0, 1, 8, 79, 81, 180, 800, 8_000, 8_080, 65_534, PORT_LIMIT];

/// A character of a path or a query as it is spelled: one byte, or an escape.
type Character = Vec<u8>;

/// The parts of a URL as they are spelled.
struct Spelling {
    scheme: Vec<u8>,
    host: Vec<u8>,
    /// The digits behind the colon.
    port: Option<Vec<u8>>,
    /// Behind the first `/`.
    path: Option<Vec<Character>>,
    query: Option<Vec<Character>>,
}

/// A URL that is read, with parts of every kind.
pub fn readable_url(rng: &mut Rng) -> Vec<u8> {
    let path = (!rng.once_in(4)).then(|| characters(RESERVED, rng));
    // A query needs a path.
    let query = (path.is_some() && rng.once_in(2)).then(|| characters(b"?;/:@&=+$,", rng));
    let (scheme, host, port) = (any_case(b"http", rng), rng.string(HOST, 1, 10), port(rng));
    Spelling { scheme, host, port, path, query }.text()
}

/// Another spelling of a readable URL: other bytes, equal to it.
pub fn respelled_url(url: &[u8], rng: &mut Rng) -> Vec<u8> {
    loop {
        let mut spelling = Spelling::of(url);
        spelling.respell(rng);
        let respelled = spelling.text();
        if respelled != url {
            return respelled;
        }
    }
}

/// A readable URL that is not equal to the given one, though little differs.
pub fn other_url(url: &[u8], rng: &mut Rng) -> Vec<u8> {
    loop {
        let mut spelling = Spelling::of(url);
        if spelling.alter(rng) {
            return spelling.text();
        }
    }
}

fn port(rng: &mut Rng) -> Option<Vec<u8>> {
    let number = match rng.below(8) {
        0..=3 => DEFAULT_PORT,
        4 | 5 => rng.pick(&NOTABLE_PORTS),
        _ => rng.word() % (PORT_LIMIT + 1),
    };
    spell_port(number, rng)
}

fn spell_port(number: u64, rng: &mut Rng) -> Option<Vec<u8>> {
    match number {
        DEFAULT_PORT => rng.pick(&DEFAULT_PORTS).map(<[u8]>::to_vec),
        _ => Some(spell_number(number, rng)),
    }
}

/// Up to a dozen characters, or so; most often few.
fn characters(reserved: &[u8], rng: &mut Rng) -> Vec<Character> {
    let mut characters = Vec::new();
    for _ in 0..rng.below(12) {
        match rng.below(12) {
            0..=4 => characters.push(vec![rng.pick(UNRESERVED)]),
            5 | 6 => characters.push(vec![rng.pick(reserved)]),
            7 => characters.push(escape(rng.pick(UNRESERVED), rng)),
            8 => characters.push(escape(rng.pick(b"?;/:@&=+$,"), rng)),
            9 => characters.push(escape(rng.byte(), rng)),
            _ => characters.extend(escaped_percent(rng)),
        }
        if rng.once_in(8) {
            break;
        }
    }
    characters
}

/// `%25` and two hex digits, plain or escaped, which look like an escape once `%25` is resolved.
fn escaped_percent(rng: &mut Rng) -> [Character; 3] {
    let mut digit = || {
        let digit = rng.pick(HEX_DIGITS);
        if rng.once_in(3) {
            escape(digit, rng)
        } else {
            vec![digit]
        }
    };
    [b"%25".to_vec(), digit(), digit()]
}

/// With each hex digit in either letter case.
fn escape(byte: u8, rng: &mut Rng) -> Character {
    any_case(format!("%{byte:02x}").as_bytes(), rng)
}

/// What a character is or its escape stands for.
fn meaning(character: &[u8]) -> u8 {
    let value = |digit: u8| char::from(digit).to_digit(16).unwrap_or(0) as u8;
    match *character {
        [b'%', high, low] => value(high) << 4 | value(low),
        _ => character[0],
    }
}

fn is_escape(character: &[u8]) -> bool {
    character[0] == b'%'
}

fn is_unreserved(byte: u8) -> bool {
    byte.is_ascii_alphanumeric() || MARKS.contains(&byte)
}

fn is_reserved(byte: u8) -> bool {
    byte == QUERY_MARK || RESERVED.contains(&byte)
}

/// What stands before the first such byte, and what behind it.
fn split_at(text: &[u8], mark: u8) -> (&[u8], Option<&[u8]>) {
    match text.iter().position(|byte| *byte == mark) {
        Some(at) => (&text[..at], Some(&text[at + 1..])),
        None => (text, None),
    }
}

fn characters_of(mut text: &[u8]) -> Vec<Character> {
    let mut characters = Vec::new();
    while !text.is_empty() {
        let (character, behind) = text.split_at(if text[0] == b'%' { 3 } else { 1 });
        characters.push(character.to_vec());
        text = behind;
    }
    characters
}

impl Spelling {
    /// Of a URL that is read.
    fn of(url: &[u8]) -> Self {
        let (scheme, behind) = url.split_at(b"http".len());
        let (server, page) = split_at(&behind[b"://".len()..], b'/');
        let (host, port) = split_at(server, b':');
        let (path, query) = page.map(|page| split_at(page, QUERY_MARK)).unzip();
        Spelling {
            scheme: scheme.to_vec(),
            host: host.to_vec(),
            port: port.map(<[u8]>::to_vec),
            path: path.map(characters_of),
            query: query.flatten().map(characters_of),
        }
    }

    fn text(&self) -> Vec<u8> {
        let mut text = [&self.scheme[..], b"://", &self.host].concat();
        if let Some(port) = &self.port {
            text.extend([b":", &port[..]].concat());
        }
        if let Some(path) = &self.path {
            text.extend([b"/", &path.concat()[..]].concat());
        }
        if let Some(query) = &self.query {
            text.extend([b"?", &query.concat()[..]].concat());
        }
        text
    }

    fn port_number(&self) -> u64 {
        match self.port.as_deref() {
            None | Some([]) => DEFAULT_PORT,
            Some(digits) => digits.iter().fold(0, |value, digit| value * 10 + u64::from(digit - b'0')),
        }
    }

    /// One of the characters that have the property, if any does.
    fn find(&mut self, has: impl Fn(&[u8]) -> bool, rng: &mut Rng) -> Option<&mut Character> {
        let all = self.path.iter_mut().chain(&mut self.query).flatten();
        let mut found: Vec<_> = all.filter(|character| has(character)).collect();
        if found.is_empty() {
            return None;
        }
        let at = rng.below(found.len());
        Some(found.swap_remove(at))
    }

    /// Changes at most one part, without changing what the URL is equal to.
    fn respell(&mut self, rng: &mut Rng) {
        match rng.below(6) {
            0 => self.scheme = any_case(&self.scheme, rng),
            1 => self.host = any_case(&self.host, rng),
            2 => self.port = spell_port(self.port_number(), rng),
            3 => self.toggle_path(),
            _ => self.respell_unreserved(rng),
        }
    }

    /// Drops or adds the `/` of a path that has nothing else, where no query needs it.
    fn toggle_path(&mut self) {
        self.path = match (self.path.take(), &self.query) {
            (None, _) => Some(Vec::new()),
            (Some(path), None) if path.is_empty() => None,
            (path, _) => path,
        }
    }

    /// Escapes an unreserved character, resolves its escape, or spells its escape in other letter case.
    fn respell_unreserved(&mut self, rng: &mut Rng) {
        if let Some(character) = self.find(|character| is_unreserved(meaning(character)), rng) {
            let byte = meaning(character);
            let resolve = is_escape(character) && !rng.once_in(4);
            *character = if resolve { vec![byte] } else { escape(byte, rng) };
        }
    }

    /// Makes another URL of it; false, if there is nothing for the change that was drawn.
    fn alter(&mut self, rng: &mut Rng) -> bool {
        match rng.below(8) {
            0 => self.alter_port(rng),
            1 => self.alter_host(rng),
            2 => self.alter_letter(rng),
            3 => self.toggle_query(),
            4 => self.alter_hex_digit(rng),
            5 => self.escape_reserved(rng),
            6 => self.resolve_reserved(rng),
            _ => self.lengthen(rng),
        }
    }

    fn alter_port(&mut self, rng: &mut Rng) -> bool {
        let number = self.port_number();
        let next = if number == PORT_LIMIT { 0 } else { number + 1 };
        let notable = rng.pick(&NOTABLE_PORTS);
        let other = rng.pick(&[next, DEFAULT_PORT, notable]);
        self.port = spell_port(other, rng);
        other != number
    }

    fn alter_host(&mut self, rng: &mut Rng) -> bool {
        let (at, other) = (rng.below(self.host.len()), rng.pick(HOST));
        let sent = std::mem::replace(&mut self.host[at], other);
        !sent.eq_ignore_ascii_case(&other)
    }

    /// The other letter case of a letter in path or query.
    fn alter_letter(&mut self, rng: &mut Rng) -> bool {
        let letter = self.find(|character| meaning(character).is_ascii_alphabetic(), rng);
        letter.map(|character| *character = vec![meaning(character) ^ 0x20]).is_some()
    }

    /// `/` or another path, with an empty query and without.
    fn toggle_query(&mut self) -> bool {
        match &self.query {
            None => {
                self.path.get_or_insert_with(Vec::new);
                self.query = Some(Vec::new());
                true
            }
            Some(query) if query.is_empty() => {
                self.query = None;
                true
            }
            Some(_) => false,
        }
    }

    /// The other letter case of a hex digit of a needed escape.
    fn alter_hex_digit(&mut self, rng: &mut Rng) -> bool {
        let is_spelled_in_letters = |character: &[u8]| {
            is_escape(character)
                && !is_unreserved(meaning(character))
                && character.iter().any(u8::is_ascii_alphabetic)
        };
        let Some(character) = self.find(is_spelled_in_letters, rng) else { return false };
        let mut letters: Vec<_> = character.iter_mut().filter(|byte| byte.is_ascii_alphabetic()).collect();
        let at = rng.below(letters.len());
        *letters[at] ^= 0x20;
        true
    }

    fn escape_reserved(&mut self, rng: &mut Rng) -> bool {
        let Some(character) = self.find(|character| is_reserved(character[0]), rng) else { return false };
        *character = escape(character[0], rng);
        true
    }

    /// A `?` in the path begins a query, so that the URL is another all the same.
    fn resolve_reserved(&mut self, rng: &mut Rng) -> bool {
        let is_escaped = |character: &[u8]| is_escape(character) && is_reserved(meaning(character));
        let Some(character) = self.find(is_escaped, rng) else { return false };
        *character = vec![meaning(character)];
        true
    }

    /// One byte more, in the host, the path or the query.
    fn lengthen(&mut self, rng: &mut Rng) -> bool {
        if rng.once_in(3) {
            let at = rng.below(self.host.len() + 1);
            self.host.insert(at, rng.pick(HOST));
            return true;
        }
        let in_query = self.query.as_mut().filter(|_| rng.once_in(2));
        let characters = in_query.unwrap_or(self.path.get_or_insert_with(Vec::new));
        let at = rng.below(characters.len() + 1);
        characters.insert(at, vec![if rng.once_in(3) { b'/' } else { rng.pick(UNRESERVED) }]);
        true
    }
}

/// How long the long URLs are: 8,192 and some bytes on both sides of it.
const LONG: RangeInclusive<usize> = 8_180..=8_200;

/// Absent paths with every kind of port, long hosts, ports of many zeros, long paths and long queries with
/// escapes of both kinds, and values that are refused.
const LONG_SHAPES: [(&[u8], u8, &[u8]); 34] = [
    (b"http://", b'a', b""),
    (b"HTTP://", b'A', b""),
    (b"http://", b'a', b":"),
    (b"http://", b'a', b":80"),
    (b"http://", b'a', b":0080"),
    (b"http://", b'a', b":0"),
    (b"http://", b'a', b":00"),
    (b"http://", b'a', b":8080"),
    (b"http://", b'a', b":08080"),
    (b"http://", b'a', b":65535"),
    (b"http://", b'a', b"/"),
    (b"http://", b'A', b":/"),
    (b"http://", b'a', b"/?"),
    (b"http://", b'a', b":0000000080/?%7e"),
    (b"http://a:", b'0', b""),
    (b"http://a:", b'0', b"80"),
    (b"http://a:", b'0', b"81/%41"),
    (b"http://a/", b'b', b""),
    (b"http://a/", b'b', b"%41"),
    (b"http://a/", b'b', b"%2f"),
    (b"http://a:80/", b'b', b"%2F%7E"),
    (b"http://a:8080/%41%42", b'/', b"?%43"),
    (b"http://a:/", b'b', b"?"),
    (b"http://a/?", b'?', b""),
    (b"http://a/?", b'b', b"%61%2561"),
    (b"http://a/%61?%61", b'&', b"%26"),
    (b"http://", b'a', b"#"),
    (b"http://", b'a', b"?"),
    (b"http://a/", b'b', b"#"),
    (b"http://a/?", b'b', b"%4"),
    (b"http://a/", b'b', b"%4g"),
    (b"http://a/%zz", b'b', b""),
    (b"http://", b'a', b":65536"),
    (b"http://a:", b'0', b"99999"),
];

/// Behind them an escape that fills the length, but for up to two plain bytes.
const ESCAPED_STARTS: [&[u8]; 3] = [b"http://a/", b"HTTP://A:080/?", b"http://a:81/"];

fn filled_with(start: &[u8], escape: &[u8], length: usize) -> Vec<u8> {
    let left = length - start.len();
    [start, &escape.repeat(left / escape.len()), &b"bb"[..left % escape.len()]].concat()
}

/// URLs of 8,180 to 8,200 bytes. Their normal forms are a byte longer, as long or shorter.
pub fn long_urls() -> Vec<Vec<u8>> {
    let mut urls = Vec::new();
    for length in LONG {
        urls.extend(LONG_SHAPES.map(|(head, filler, tail)| padded(head, filler, tail, length)));
        for start in ESCAPED_STARTS {
            urls.extend([b"%41", b"%2f", b"%7E"].map(|escape| filled_with(start, escape, length)));
        }
    }
    urls
}
