//! The byte classes of the plain readers as tables, so that each test is one load.

const HT: u8 = b'\t';

/// Bits of `CLASSES`.
pub const TOKEN: u8 = 1;
/// What trailer lines hold.
pub const TEXT: u8 = 2;
/// What stands for itself between quotes.
pub const QUOTED: u8 = 4;
/// What may follow the backslash of a pair (house rule).
pub const PAIR: u8 = 8;
pub const IN_HOST: u8 = 16;
pub const IN_PATH: u8 = 32;
pub const IN_QUERY: u8 = 64;
/// What an escape in a URL may stand for.
pub const UNRESERVED: u8 = 128;

const fn token_class(byte: u8) -> u8 {
    match byte {
        b'(' | b')' | b'<' | b'>' | b'@' | b',' | b';' | b':' | b'\\' | b'"' => 0,
        b'/' | b'[' | b']' | b'?' | b'=' | b'{' | b'}' => 0,
        b'!'..=b'~' => TOKEN,
        _ => 0,
    }
}

const fn text_class(byte: u8) -> u8 {
    match byte {
        b'"' | b'\\' => TEXT | PAIR,
        HT | b' '..=b'~' => TEXT | PAIR | QUOTED,
        128..=u8::MAX => TEXT | QUOTED,
        _ => 0,
    }
}

const fn url_class(byte: u8) -> u8 {
    match byte {
        b'a'..=b'z' | b'A'..=b'Z' | b'0'..=b'9' | b'-' | b'.' => IN_HOST | IN_PATH | IN_QUERY | UNRESERVED,
        b'_' | b'!' | b'~' | b'*' | b'\'' | b'(' | b')' => IN_PATH | IN_QUERY | UNRESERVED,
        b';' | b'/' | b':' | b'@' | b'&' | b'=' | b'+' | b'$' | b',' => IN_PATH | IN_QUERY,
        b'?' => IN_QUERY,
        _ => 0,
    }
}

const CLASSES: [u8; 256] = {
    let mut table = [0; 256];
    let mut byte = 0;
    while byte < table.len() {
        table[byte] = token_class(byte as u8) | text_class(byte as u8) | url_class(byte as u8);
        byte += 1;
    }
    table
};

#[inline]
pub fn is_in(byte: u8, class: u8) -> bool {
    CLASSES[usize::from(byte)] & class != 0
}

/// How many bytes of the class stand at the front.
#[inline]
pub fn run(bytes: &[u8], class: u8) -> usize {
    bytes.iter().take_while(|byte| is_in(**byte, class)).count()
}

pub const NO_DIGIT: u8 = u8::MAX;

const fn hex_value(byte: u8) -> u8 {
    match byte {
        b'0'..=b'9' => byte - b'0',
        b'a'..=b'f' => byte - b'a' + 10,
        b'A'..=b'F' => byte - b'A' + 10,
        _ => NO_DIGIT,
    }
}

/// The value of each byte that is a hex digit.
pub const HEX_VALUES: [u8; 256] = {
    let mut table = [0; 256];
    let mut byte = 0;
    while byte < table.len() {
        table[byte] = hex_value(byte as u8);
        byte += 1;
    }
    table
};
