//! The plain reader and comparison of media types.

use crate::media::{Parameter, PARAMETER_LIMIT};
use crate::number::{REPEATED_ATTRIBUTE, TOO_MANY_PARAMETERS};
use crate::plain_classes::{is_in, TOKEN};
use crate::plain_cursor::Cursor;
use crate::rules::is_blank;
use crate::{Refusal, Refused, Span, Which};

const CHARSET: &[u8] = b"charset";

/// A media type's parts, the parameters in the order sent. Unused entries are zero.
#[derive(Clone, Copy, Debug, Default, PartialEq, Eq, Hash)]
pub struct MediaTable {
    pub main: Span,
    pub subtype: Span,
    pub parameters: [Parameter; PARAMETER_LIMIT],
    pub count: usize,
}

impl MediaTable {
    pub fn sent(&self) -> &[Parameter] {
        &self.parameters[..self.count]
    }

    #[inline]
    fn push(&mut self, parameter: Parameter) {
        self.parameters[self.count] = parameter;
        self.count += 1;
    }

    /// Reads a media type into an empty table.
    #[inline]
    fn read(&mut self, input: &[u8]) -> Result<(), Refusal> {
        let mut value = Cursor::new(input)?;
        self.main = value.token()?;
        value.expect(b'/')?;
        self.subtype = value.token()?;
        while semicolon(&mut value)? {
            if self.count == PARAMETER_LIMIT {
                return Err(one_too_many(&value));
            }
            let parameter = parameter(&mut value, self)?;
            self.push(parameter);
        }
        Ok(())
    }

    /// Whether an earlier parameter has this name, letter case ignored.
    #[inline]
    fn has(&self, name: &[u8], input: &[u8]) -> bool {
        self.sent().iter().any(|earlier| same_name(earlier.attribute.of(input), name))
    }
}

/// The comparison looks at the lengths first.
#[inline]
fn same_name(one: &[u8], other: &[u8]) -> bool {
    one.eq_ignore_ascii_case(other)
}

#[inline]
fn blanks(value: &mut Cursor) {
    while value.peek().is_some_and(is_blank) {
        value.at += 1;
    }
}

/// Goes behind the `;` and its blanks; false, if the value ends instead.
#[inline]
fn semicolon(value: &mut Cursor) -> Result<bool, Refusal> {
    if value.at == value.input.len() {
        return Ok(false);
    }
    blanks(value);
    value.expect(b';')?;
    blanks(value);
    Ok(true)
}

/// Reads a parameter that earlier ones stand before.
#[inline]
fn parameter(value: &mut Cursor, earlier: &MediaTable) -> Result<Parameter, Refusal> {
    let attribute = value.token()?;
    // 1 comes before 11 at the `=`.
    value.expect(b'=')?;
    if earlier.has(attribute.of(value.input), value.input) {
        return Err(Refusal::new(REPEATED_ATTRIBUTE, attribute.end()));
    }
    if value.peek() == Some(b'"') {
        value.at += 1;
        return Ok(Parameter { attribute, value: value.quoted_rest()?, quoted: true });
    }
    Ok(Parameter { attribute, value: value.token()?, quoted: false })
}

/// Why nothing may stand here, behind the semicolon that follows the last parameter allowed.
#[cold]
fn one_too_many(value: &Cursor) -> Refusal {
    match value.peek() {
        Some(byte) if is_in(byte, TOKEN) => Refusal::new(TOO_MANY_PARAMETERS, value.at),
        _ => value.malformed(),
    }
}

/// Its answers are those of `media::read`.
pub fn media(input: &[u8]) -> Result<MediaTable, Refusal> {
    let mut table = MediaTable::default();
    table.read(input)?;
    Ok(table)
}

/// The bytes that a value stands for: of each pair, the byte behind the backslash. No token has a backslash.
#[inline]
fn unquoted(sent: &[u8]) -> impl Iterator<Item = u8> + '_ {
    let mut sent = sent.iter().copied();
    std::iter::from_fn(move || match sent.next() {
        Some(b'\\') => sent.next(),
        byte => byte,
    })
}

/// Values are compared after unquoting; most have no pair.
fn same_value(one: &[u8], other: &[u8], ignore_case: bool) -> bool {
    let has_pairs = one.contains(&b'\\') || other.contains(&b'\\');
    let lower = |byte: u8| byte.to_ascii_lowercase();
    match (has_pairs, ignore_case) {
        (false, false) => one == other,
        (false, true) => one.eq_ignore_ascii_case(other),
        (true, false) => unquoted(one).eq(unquoted(other)),
        (true, true) => unquoted(one).map(lower).eq(unquoted(other).map(lower)),
    }
}

/// Whether the other type has this type's parameter of this index, most likely at the same one.
fn is_shared(index: usize, first: &[u8], one: &MediaTable, second: &[u8], other: &MediaTable) -> bool {
    let Parameter { attribute, value, .. } = one.parameters[index];
    let name = attribute.of(first);
    let (before, from_index) = other.sent().split_at(index);
    let mut likely_first = from_index.iter().chain(before);
    let found = likely_first.find(|parameter| same_name(parameter.attribute.of(second), name));
    found.is_some_and(|parameter| {
        same_value(value.of(first), parameter.value.of(second), same_name(name, CHARSET))
    })
}

/// Its answers are those of `media::equal`.
pub fn media_equal(first: &[u8], second: &[u8]) -> Result<bool, Refused> {
    let (mut one, mut other) = (MediaTable::default(), MediaTable::default());
    one.read(first).map_err(|refusal| Refused { which: Which::First, refusal })?;
    other.read(second).map_err(|refusal| Refused { which: Which::Second, refusal })?;
    // No name is repeated, so as many parameters, all of them shared, are the same set.
    Ok(same_name(one.main.of(first), other.main.of(second))
        && same_name(one.subtype.of(first), other.subtype.of(second))
        && one.count == other.count
        && (0..one.count).all(|index| is_shared(index, first, &one, second, &other)))
}
