//! Media types (RFC 2616 3.7).

use crate::grammar::{any_number, part, Grammar, Name, Parsed};
use crate::number::{REPEATED_ATTRIBUTE, TOO_MANY_PARAMETERS};
use crate::rules::{blank, quoted, quoted_bytes, token, unquote};
use crate::{read_both, read_header, Refusal, Refused, Span};
use std::sync::OnceLock;
use Grammar::{Exact, OneOf, Seq};

pub const PARAMETER_LIMIT: usize = 16;

const TEXT: &[u8] = b"text";
const CHARSET: &[u8] = b"charset";
/// The name of `Charset::TextDefault` (RFC 2616 3.7.1).
const TEXT_CHARSET: &[u8] = b"ISO-8859-1";

const TYPE: Name = "type";
const SUBTYPE: Name = "subtype";
const ATTRIBUTE: Name = "attribute";
const TOKEN_VALUE: Name = "token value";
const QUOTED_VALUE: Name = "quoted value";

#[derive(Clone, Copy, Debug, Default, PartialEq, Eq, Hash)]
pub struct Parameter {
    pub attribute: Span,
    /// A quoted value's bytes without its quotes, pairs as sent.
    pub value: Span,
    pub quoted: bool,
}

#[derive(Clone, Debug, PartialEq, Eq, Hash)]
pub struct MediaType {
    pub main: Span,
    pub subtype: Span,
    pub parameters: Vec<Parameter>,
}

#[derive(Clone, Copy, Debug, PartialEq, Eq, Hash)]
pub enum Charset {
    /// The value of the charset parameter, as in `Parameter`.
    Given { value: Span, quoted: bool },
    /// What `charset_assuming_iso_8859_1` assumes for type `text`.
    TextDefault,
    /// None stated.
    Absent,
}

impl Charset {
    /// The name in bytes; a stated one stands in the input that was read.
    pub fn name<'a>(&self, input: &'a [u8]) -> Option<&'a [u8]> {
        match self {
            Charset::Given { value, .. } => Some(value.of(input)),
            Charset::TextDefault => Some(TEXT_CHARSET),
            Charset::Absent => None,
        }
    }
}

pub fn grammar() -> &'static Grammar {
    static GRAMMAR: OnceLock<Grammar> = OnceLock::new();
    GRAMMAR.get_or_init(|| {
        let blanks = || any_number(blank());
        let value = OneOf(vec![part(TOKEN_VALUE, token()), quoted(part(QUOTED_VALUE, quoted_bytes()))]);
        let attribute = part(ATTRIBUTE, token());
        let parameter = Seq(vec![blanks(), Exact(";"), blanks(), attribute, Exact("="), value]);
        Seq(vec![part(TYPE, token()), Exact("/"), part(SUBTYPE, token()), any_number(parameter)])
    })
}

fn limits(parsed: &Parsed, input: &[u8]) -> Vec<Refusal> {
    let attributes: Vec<Span> = parsed.all(ATTRIBUTE).collect();
    let seventeenth = attributes.get(PARAMETER_LIMIT);
    let too_many = seventeenth.map(|span| Refusal::new(TOO_MANY_PARAMETERS, span.start));
    // The name is settled once its `=` is in the input; parameters above the limit need no look.
    let settled = |span: &&Span| span.end() < parsed.live;
    let names: Vec<Span> = attributes.iter().take(PARAMETER_LIMIT).filter(settled).copied().collect();
    let repeats = |at: usize| {
        let name = names[at].of(input);
        names[..at].iter().any(|earlier| earlier.of(input).eq_ignore_ascii_case(name))
    };
    let second = (0..names.len()).find(|&at| repeats(at));
    let repeated = second.map(|at| Refusal::new(REPEATED_ATTRIBUTE, names[at].end()));
    too_many.into_iter().chain(repeated).collect()
}

pub fn read(input: &[u8]) -> Result<MediaType, Refusal> {
    let parsed = read_header(grammar(), input, |parsed| limits(parsed, input))?;
    let values = parsed.parts.iter().filter(|part| [TOKEN_VALUE, QUOTED_VALUE].contains(&part.name));
    let parameters = parsed.all(ATTRIBUTE).zip(values).map(|(attribute, value)| Parameter {
        attribute,
        value: value.span,
        quoted: value.name == QUOTED_VALUE,
    });
    Ok(MediaType {
        main: parsed.first(TYPE).unwrap_or_default(),
        subtype: parsed.first(SUBTYPE).unwrap_or_default(),
        parameters: parameters.collect(),
    })
}

/// What two types must have in common to be equal: names in lower case, values unquoted, parameters in order.
#[derive(PartialEq, Eq)]
struct Meaning {
    main: Vec<u8>,
    subtype: Vec<u8>,
    parameters: Vec<(Vec<u8>, Vec<u8>)>,
}

fn meaning(read: &MediaType, input: &[u8]) -> Meaning {
    let lower = |span: Span| span.of(input).to_ascii_lowercase();
    let parameter = |parameter: &Parameter| {
        let name = lower(parameter.attribute);
        let sent = parameter.value.of(input);
        let value = if parameter.quoted { unquote(sent) } else { sent.to_vec() };
        let value = if name == CHARSET { value.to_ascii_lowercase() } else { value };
        (name, value)
    };
    let mut parameters: Vec<_> = read.parameters.iter().map(parameter).collect();
    parameters.sort();
    Meaning { main: lower(read.main), subtype: lower(read.subtype), parameters }
}

pub fn equal(first: &[u8], second: &[u8]) -> Result<bool, Refused> {
    let (one, other) = read_both(read, first, second)?;
    Ok(meaning(&one, first) == meaning(&other, second))
}

fn stated_charset(media: &MediaType, input: &[u8]) -> Charset {
    let is_charset = |parameter: &&Parameter| parameter.attribute.of(input).eq_ignore_ascii_case(CHARSET);
    match media.parameters.iter().find(is_charset) {
        Some(parameter) => Charset::Given { value: parameter.value, quoted: parameter.quoted },
        None => Charset::Absent,
    }
}

/// What is stated, of every type: the later HTTP standard has no default (request v).
pub fn effective_charset(input: &[u8]) -> Result<Charset, Refusal> {
    Ok(stated_charset(&read(input)?, input))
}

/// As document 01 had it, for callers that rely on the old default of type `text` (request v).
pub fn charset_assuming_iso_8859_1(input: &[u8]) -> Result<Charset, Refusal> {
    let media = read(input)?;
    let is_text = media.main.of(input).eq_ignore_ascii_case(TEXT);
    Ok(match stated_charset(&media, input) {
        Charset::Absent if is_text => Charset::TextDefault,
        stated => stated,
    })
}
