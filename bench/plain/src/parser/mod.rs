//! Section 3.2 by recursive descent, one token ahead. The grammar is LL(1) with
//! document 01's grouping, so the token at which the parser stops is the first
//! that no guideline can have there (3). What is left out is read all the same
//! and its first place noted (10), and so are the measures of limits (6) and
//! repeated attributes (4).

mod definitions;
mod expressions;
mod left_out;

use crate::lexer::Lexed;
use crate::refusal::{Reason, Refusal};
use crate::syntax::{Name, Written};
use crate::token::{Kind, Token};

/// What the parser notes on its way; it goes through the text in order, so the
/// first place is the smallest.
#[derive(Debug, Default)]
pub struct Notes {
    pub left_out: Option<usize>,
    pub repeated: Option<usize>,
    /// An expression that is too deep or has too long a list in it.
    pub too_large: Option<usize>,
    pub parts: usize,
    pub assignments: usize,
    pub sources: usize,
}

/// The guideline that these tokens are, or refusal 3.
pub fn parse<'text>(text: &'text [u8], lexed: &'text Lexed) -> Result<(Written<'text>, Notes), Refusal> {
    let mut parser = Parser { text, tokens: &lexed.tokens, at: 0, notes: Notes::default() };
    let written = parser.process()?;
    Ok((written, parser.notes))
}

struct Parser<'text> {
    text: &'text [u8],
    /// The last one says that the text ends, and is never passed.
    tokens: &'text [Token],
    at: usize,
    notes: Notes,
}

/// The words of attributes that an owner has had.
#[derive(Default)]
struct Seen(u128);

impl<'text> Parser<'text> {
    fn token(&self) -> &'text Token {
        &self.tokens[self.at]
    }

    fn kind(&self) -> Kind {
        self.token().kind
    }

    fn place(&self) -> usize {
        self.token().place()
    }

    /// Refusal 3 at the token ahead.
    fn stop<T>(&self) -> Result<T, Refusal> {
        Err(Reason::Grammar.at(self.place()))
    }

    /// Whether the token ahead is of this kind; if so, it is passed.
    fn passes(&mut self, kind: Kind) -> bool {
        // Not `self.at += usize::from(is_ahead)`: rustc 1.95.0 optimises that away
        // where the answer is branched on (its pass SimplifyComparisonIntegral).
        if self.kind() != kind {
            return false;
        }
        self.at += 1;
        true
    }

    fn expect(&mut self, kind: Kind) -> Result<(), Refusal> {
        match self.passes(kind) {
            true => Ok(()),
            false => self.stop(),
        }
    }

    /// An attribute's word and the double colon behind it.
    fn word(&mut self, kind: Kind) -> Result<(), Refusal> {
        self.expect(kind)?;
        self.expect(Kind::DoubleColon)
    }

    fn atom(&mut self) -> Result<Name<'text>, Refusal> {
        let token = self.token();
        if !token.is_atom() {
            return self.stop();
        }
        self.at += 1;
        Ok(Name { text: token.inner(self.text), place: token.place() })
    }

    /// An atom that means something; any other stops the parser (3.3).
    fn atom_of<T>(&mut self, meaning: fn(&[u8]) -> Option<T>) -> Result<T, Refusal> {
        let token = self.token();
        match meaning(token.inner(self.text)) {
            Some(meant) if token.is_atom() => {
                self.at += 1;
                Ok(meant)
            }
            _ => self.stop(),
        }
    }

    fn yes_or_no(&mut self) -> Result<bool, Refusal> {
        self.atom_of(|name| match name {
            b"yes" => Some(true),
            b"no" => Some(false),
            _ => None,
        })
    }

    /// An atom, or one with a colon and another, which is left out.
    fn data_name(&mut self) -> Result<Name<'text>, Refusal> {
        let name = self.atom()?;
        if self.kind() == Kind::Colon {
            self.leave_out();
            self.at += 1;
            self.atom()?;
        }
        Ok(name)
    }

    /// Notes that the token ahead names something left out.
    fn leave_out(&mut self) {
        self.notes.left_out.get_or_insert(self.place());
    }

    /// Notes the attribute's word ahead, and whether its owner had it before.
    fn note_word(&mut self, seen: &mut Seen) {
        let bit = 1 << self.kind() as u8;
        if seen.0 & bit != 0 {
            self.notes.repeated.get_or_insert(self.place());
        }
        seen.0 |= bit;
    }
}
