//! Product tokens (RFC 2616 3.8) with comments (2.2).

use crate::grammar::{any_number, one_or_more, optional, part, Grammar, Name, Parsed};
use crate::number::COMMENT_TOO_DEEP;
use crate::rules::{blank, is_text, pair, token};
use crate::{read_header, Refusal, Span};
use std::sync::OnceLock;
use Grammar::{Byte, Exact, OneOf, Rule, Seq};

pub const LEVEL_LIMIT: usize = 8;

const PRODUCT: Name = "product";
const OPEN: Name = "(";
const CLOSE: Name = ")";

#[derive(Clone, Copy, Debug, Default, PartialEq, Eq, Hash)]
pub struct Products {
    pub products: usize,
    /// Outermost comments.
    pub comments: usize,
    /// The deepest level of a comment; 0 without comments.
    pub deepest: usize,
}

fn is_comment_text(byte: u8) -> bool {
    is_text(byte) && !b"()\\".contains(&byte)
}

fn comment() -> &'static Grammar {
    static COMMENT: OnceLock<Grammar> = OnceLock::new();
    COMMENT.get_or_init(|| {
        let content = OneOf(vec![Byte(is_comment_text, b'a'), pair(), Rule(comment)]);
        Seq(vec![part(OPEN, Exact("(")), any_number(content), part(CLOSE, Exact(")"))])
    })
}

/// At least one blank stands between two products; next to a comment there may be none.
pub fn grammar() -> &'static Grammar {
    static GRAMMAR: OnceLock<Grammar> = OnceLock::new();
    GRAMMAR.get_or_init(|| {
        let version = || Seq(vec![Exact("/"), token()]);
        let product = || part(PRODUCT, Seq(vec![token(), optional(version())]));
        let comments = || Seq(vec![Rule(comment), optional(product())]);
        let after_blank = Seq(vec![one_or_more(blank()), product()]);
        let after_any = Seq(vec![any_number(blank()), comments()]);
        Seq(vec![OneOf(vec![product(), comments()]), any_number(OneOf(vec![after_blank, after_any]))])
    })
}

/// Each open parenthesis with the level it opens.
fn levels(parsed: &Parsed) -> Vec<(Span, usize)> {
    let mut level = 0;
    let mut opened = Vec::new();
    for part in &parsed.parts {
        match part.name {
            OPEN => {
                level += 1;
                opened.push((part.span, level));
            }
            CLOSE => level -= 1,
            _ => {}
        }
    }
    opened
}

fn limits(parsed: &Parsed) -> Vec<Refusal> {
    let too_deep = levels(parsed).into_iter().find(|(_, level)| *level > LEVEL_LIMIT);
    too_deep.map(|(span, _)| Refusal::new(COMMENT_TOO_DEEP, span.start)).into_iter().collect()
}

pub fn read(input: &[u8]) -> Result<Products, Refusal> {
    let parsed = read_header(grammar(), input, limits)?;
    let opened = levels(&parsed);
    Ok(Products {
        products: parsed.all(PRODUCT).count(),
        comments: opened.iter().filter(|(_, level)| *level == 1).count(),
        deepest: opened.iter().map(|(_, level)| *level).max().unwrap_or(0),
    })
}
