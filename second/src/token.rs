//! Tokens: what the lexer finds, with its place in the text.

use crate::grammar::grammar;

/// What a token is, by the rule of section 2 that found it.
#[derive(Clone, Copy, Debug, PartialEq, Eq)]
pub enum Kind {
    /// A reserved string, by its number in the grammar's list.
    Reserved(usize),
    BareAtom,
    QuotedAtom,
    Integer,
    Float,
    /// A float that ends in an exponent; left out of the first edition.
    ExponentFloat,
    DoubleQuotedString,
}

/// One token and the bytes of the text it stands for.
#[derive(Clone, Copy, Debug, PartialEq, Eq)]
pub struct Token<'text> {
    pub kind: Kind,
    /// The place of its first byte.
    pub place: usize,
    /// Its bytes as written, quotes included.
    pub written: &'text str,
}

impl<'text> Token<'text> {
    /// Whether this is a bare or a quoted atom.
    pub fn is_atom(&self) -> bool {
        matches!(self.kind, Kind::BareAtom | Kind::QuotedAtom)
    }

    /// Whether this is the reserved string `word`; a quoted one is not.
    pub fn is(&self, word: &str) -> bool {
        self.reserved() == Some(word)
    }

    /// The reserved string that this token is, if it is one.
    pub fn reserved(&self) -> Option<&'static str> {
        match self.kind {
            Kind::Reserved(number) => Some(grammar().reserved()[number]),
            _ => None,
        }
    }

    /// The characters between the quotes, or all of them if there are none.
    pub fn inner(&self) -> &'text str {
        match self.kind {
            Kind::QuotedAtom | Kind::DoubleQuotedString => &self.written[1..self.written.len() - 1],
            _ => self.written,
        }
    }

    /// The letter that `tokens-many` prints for this kind of token.
    pub fn letter(&self) -> char {
        match self.kind {
            Kind::Reserved(_) if self.written.as_bytes()[0].is_ascii_alphabetic() => 'w',
            Kind::Reserved(_) => 'y',
            Kind::BareAtom => 'a',
            Kind::QuotedAtom => 'q',
            Kind::Integer => 'i',
            Kind::Float => 'f',
            Kind::ExponentFloat => 'x',
            Kind::DoubleQuotedString => 's',
        }
    }
}
