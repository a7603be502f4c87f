//! Grammars as values, and a matcher that follows every alternative.
//!
//! The matcher answers with all ends a rule can have from one start. It never chooses between alternatives and
//! never gives one up before it fails, and every rule has at least one string. So each byte that some path
//! consumed belongs to a beginning that can be completed, and the furthest such byte ends the longest one.

use crate::number::MALFORMED;
use crate::{Refusal, Span};

pub type Name = &'static str;

/// A rule. The item of a repetition consumes at least one byte.
pub enum Grammar {
    /// One byte of a class, and a member of that class.
    Byte(fn(u8) -> bool, u8),
    Exact(&'static str),
    /// Letter case ignored (RFC 2616 2.1).
    AnyCase(&'static str),
    Seq(Vec<Grammar>),
    /// Alternatives; the first one does not lead back to the rule itself.
    OneOf(Vec<Grammar>),
    Repeat {
        item: Box<Grammar>,
        min: usize,
        max: usize,
    },
    Part(Name, Box<Grammar>),
    /// A rule that may contain itself.
    Rule(fn() -> &'static Grammar),
}

pub fn repeat(min: usize, max: usize, item: Grammar) -> Grammar {
    Grammar::Repeat { item: Box::new(item), min, max }
}

pub fn any_number(item: Grammar) -> Grammar {
    repeat(0, usize::MAX, item)
}

pub fn one_or_more(item: Grammar) -> Grammar {
    repeat(1, usize::MAX, item)
}

pub fn optional(item: Grammar) -> Grammar {
    repeat(0, 1, item)
}

pub fn part(name: Name, rule: Grammar) -> Grammar {
    Grammar::Part(name, Box::new(rule))
}

/// How deep a rule is entered inside itself. Only comments do so, and nesting above eight is refused at a byte
/// far before this depth, so the bound keeps the stack small without changing an answer.
const DEPTH_LIMIT: usize = 64;

/// A named part and where it stands; in a completed beginning it may reach past the input.
#[derive(Clone, Copy, Debug, PartialEq, Eq)]
pub struct Part {
    pub name: Name,
    pub span: Span,
}

/// What was noted on the way to a state; `before` leads to the earlier notes, 0 to none.
struct Note {
    what: Noted,
    before: usize,
}

enum Noted {
    Part(Part),
    Supplied(u8),
}

/// A position, and the notes made on the way to it.
#[derive(Clone, Copy)]
struct State {
    at: usize,
    notes: usize,
}

struct Matcher<'a> {
    input: &'a [u8],
    /// Whether bytes after the input are supplied as the grammar needs them, as few as it allows.
    completing: bool,
    furthest: usize,
    depth: usize,
    notes: Vec<Note>,
    /// Emptied vectors, kept for their memory.
    spare: Vec<Vec<State>>,
}

impl<'a> Matcher<'a> {
    fn new(input: &'a [u8], completing: bool) -> Self {
        Matcher { input, completing, furthest: 0, depth: 0, notes: Vec::new(), spare: Vec::new() }
    }

    /// All ends of the rule from the front of the input.
    fn run(&mut self, rule: &Grammar) -> Vec<State> {
        let mut ends = Vec::new();
        self.ends(rule, State { at: 0, notes: 0 }, &mut ends);
        ends
    }

    fn ends(&mut self, rule: &Grammar, from: State, out: &mut Vec<State>) {
        match rule {
            Grammar::Byte(class, member) => out.extend(self.byte(from, *class, *member)),
            Grammar::Exact(text) => out.extend(self.text(from, text, |want, byte| want == byte)),
            Grammar::AnyCase(text) => {
                out.extend(self.text(from, text, |want, byte| want.eq_ignore_ascii_case(&byte)))
            }
            Grammar::Seq(rules) => self.sequence(rules, from, out),
            Grammar::OneOf(rules) => self.alternatives(rules, from, out),
            Grammar::Repeat { item, min, max } => self.repetition(item, *min, *max, from, out),
            Grammar::Part(name, rule) => self.named(name, rule, from, out),
            Grammar::Rule(rule) => self.enter(rule(), from, out),
        }
    }

    fn byte(&mut self, from: State, class: impl Fn(u8) -> bool, member: u8) -> Option<State> {
        let at = from.at + 1;
        match self.input.get(from.at) {
            Some(&byte) if class(byte) => {
                self.furthest = self.furthest.max(at);
                Some(State { at, ..from })
            }
            None if self.completing => {
                Some(State { at, notes: self.note(Noted::Supplied(member), from.notes) })
            }
            _ => None,
        }
    }

    fn text(&mut self, from: State, text: &str, same: fn(u8, u8) -> bool) -> Option<State> {
        text.bytes().try_fold(from, |state, want| self.byte(state, |byte| same(want, byte), want))
    }

    fn sequence(&mut self, rules: &[Grammar], from: State, out: &mut Vec<State>) {
        let (first, rest) = match rules {
            [] => return out.push(from),
            [only] => return self.ends(only, from, out),
            [first, rest @ ..] => (first, rest),
        };
        let mut ends = self.spare.pop().unwrap_or_default();
        self.ends(first, from, &mut ends);
        for end in ends.drain(..) {
            self.sequence(rest, end, out);
        }
        self.spare.push(ends);
    }

    fn alternatives(&mut self, rules: &[Grammar], from: State, out: &mut Vec<State>) {
        let tried = if self.past_input(from) { &rules[..1] } else { rules };
        for rule in tried {
            self.ends(rule, from, out);
        }
    }

    /// Each generation of ends is the starts of the next; those of at least `min` items stay in `out`.
    fn repetition(&mut self, item: &Grammar, min: usize, max: usize, from: State, out: &mut Vec<State>) {
        let first = out.len();
        out.push(from);
        let mut starts = first..out.len();
        let mut count = 0;
        while count < max && !starts.is_empty() {
            let next = out.len();
            for index in starts {
                let start = out[index];
                if count < min || !self.past_input(start) {
                    self.ends(item, start, out);
                }
            }
            starts = next..out.len();
            count += 1;
            if count <= min {
                out.drain(first..next);
                starts = first..out.len();
            }
        }
        if count < min {
            out.truncate(first);
        }
    }

    fn named(&mut self, name: Name, rule: &Grammar, from: State, out: &mut Vec<State>) {
        let first = out.len();
        self.ends(rule, from, out);
        for end in &mut out[first..] {
            let span = Span { start: from.at, length: end.at - from.at };
            end.notes = self.note(Noted::Part(Part { name, span }), end.notes);
        }
    }

    fn enter(&mut self, rule: &Grammar, from: State, out: &mut Vec<State>) {
        if self.depth < DEPTH_LIMIT {
            self.depth += 1;
            self.ends(rule, from, out);
            self.depth -= 1;
        }
    }

    fn past_input(&self, state: State) -> bool {
        self.completing && state.at >= self.input.len()
    }

    fn note(&mut self, what: Noted, before: usize) -> usize {
        self.notes.push(Note { what, before });
        self.notes.len()
    }

    /// The parts and the supplied bytes on the way to a state, in order.
    fn trace(&self, state: State) -> (Vec<Part>, Vec<u8>) {
        let (mut parts, mut supplied) = (Vec::new(), Vec::new());
        let mut at = state.notes;
        while at > 0 {
            let note = &self.notes[at - 1];
            match note.what {
                Noted::Part(part) => parts.push(part),
                Noted::Supplied(byte) => supplied.push(byte),
            }
            at = note.before;
        }
        parts.reverse();
        supplied.reverse();
        (parts, supplied)
    }
}

/// What a grammar, limits aside, makes of an input.
#[derive(Debug)]
pub struct Parsed {
    /// The end of the match: the input's length for a header value, the end of the line for a line.
    pub end: Option<usize>,
    /// The length of the longest beginning that can be completed.
    pub live: usize,
    /// The parts of the match, or of that beginning once completed.
    pub parts: Vec<Part>,
    /// The bytes that complete it; none after a match.
    pub completion: Vec<u8>,
}

/// Reads the whole input.
pub fn parse(rule: &Grammar, input: &[u8]) -> Parsed {
    parse_where(rule, input, |end| end == input.len())
}

/// Reads the front of the input, for rules that no string of theirs continues.
pub fn parse_front(rule: &Grammar, input: &[u8]) -> Parsed {
    parse_where(rule, input, |_| true)
}

fn parse_where(rule: &Grammar, input: &[u8], wanted: impl Fn(usize) -> bool) -> Parsed {
    let mut matcher = Matcher::new(input, false);
    let ends = matcher.run(rule);
    if let Some(end) = ends.iter().find(|end| wanted(end.at)) {
        let (parts, completion) = matcher.trace(*end);
        return Parsed { end: Some(end.at), live: end.at, parts, completion };
    }
    let live = matcher.furthest;
    let mut matcher = Matcher::new(&input[..live], true);
    let ends = matcher.run(rule);
    let end = ends.iter().find(|end| end.at >= live).expect("every consumed beginning can be completed");
    let (parts, completion) = matcher.trace(*end);
    Parsed { end: None, live, parts, completion }
}

impl Parsed {
    pub fn all(&self, name: Name) -> impl Iterator<Item = Span> + '_ {
        self.parts.iter().filter(move |part| part.name == name).map(|part| part.span)
    }

    pub fn first(&self, name: Name) -> Option<Span> {
        self.all(name).next()
    }

    /// The bytes of a part that stand in the input.
    pub fn clip(&self, span: Span) -> Span {
        let end = span.end().min(self.live);
        Span { start: span.start.min(end), length: end.saturating_sub(span.start) }
    }

    /// The lowest place among the limits broken inside the live beginning and, without a match, 1 at its end.
    pub fn refusal(&self, limits: Vec<Refusal>) -> Option<Refusal> {
        let broken = limits.into_iter().filter(|limit| limit.place < self.live);
        let malformed = self.end.is_none().then_some(Refusal::new(MALFORMED, self.live));
        broken.chain(malformed).min_by_key(|refusal| refusal.place)
    }
}
