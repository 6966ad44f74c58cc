//! Refusals: their numbers, and a sentence for each.

use std::error::Error;
use std::fmt;

/// Why a call was refused, by document 01's numbers.
#[derive(Clone, Copy, Debug, PartialEq, Eq, PartialOrd, Ord, Hash)]
#[repr(u32)]
pub enum Reason {
    /// The text is longer than 16,384 bytes, or has a byte over 127.
    Text = 1,
    /// Something in it is no word, number, text or symbol of the language.
    Token = 2,
    /// The grammar does not allow it.
    Grammar = 3,
    /// A rule on names is broken.
    Name = 4,
    /// An expression has no fitting type.
    Type = 5,
    /// A limit is passed, or a lent table is too short.
    Limit = 6,
    /// Nothing is loaded, or an exception has stopped the guideline.
    NothingRuns = 7,
    /// There is no such task or data item.
    NoComponent = 8,
    /// The value is not of the data item's type.
    WrongType = 9,
    /// The guideline uses something that this edition leaves out.
    LeftOut = 10,
}

/// A refused call. Nothing has changed, but a refused load leaves nothing loaded.
#[derive(Clone, Copy, Debug, PartialEq, Eq, Hash)]
pub struct Refusal {
    /// By document 01.
    pub number: u32,
    /// Of a refused load, the place in the text, counted in bytes from 0; else 0.
    pub place: u64,
}

impl Refusal {
    /// What the number says; none if it is no refusal's.
    pub fn reason(&self) -> Option<Reason> {
        Reason::ALL.into_iter().find(|reason| *reason as u32 == self.number)
    }
}

impl Reason {
    const ALL: [Reason; 10] = [
        Reason::Text,
        Reason::Token,
        Reason::Grammar,
        Reason::Name,
        Reason::Type,
        Reason::Limit,
        Reason::NothingRuns,
        Reason::NoComponent,
        Reason::WrongType,
        Reason::LeftOut,
    ];

    /// Whether it speaks of a place in a guideline's text.
    fn is_of_text(self) -> bool {
        !matches!(self, Reason::NothingRuns | Reason::NoComponent | Reason::WrongType)
    }

    fn sentence(self) -> &'static str {
        match self {
            Reason::Text => "the text is longer than 16,384 bytes, or has a byte over 127",
            Reason::Token => "something in the text is no word, number, text or symbol of the language",
            Reason::Grammar => "the grammar does not allow it",
            Reason::Name => "a rule on names is broken",
            Reason::Type => "an expression has no fitting type",
            Reason::Limit => "a limit is passed, or a lent table is too short",
            Reason::NothingRuns => "nothing is loaded, or an exception has stopped the guideline",
            Reason::NoComponent => "there is no such task or data item",
            Reason::WrongType => "the value is not of the data item's type",
            Reason::LeftOut => "the guideline uses something that this edition leaves out",
        }
    }
}

impl fmt::Display for Refusal {
    fn fmt(&self, f: &mut fmt::Formatter<'_>) -> fmt::Result {
        let Refusal { number, place } = self;
        match self.reason() {
            Some(reason) if reason.is_of_text() && (*place > 0 || reason != Reason::Limit) => {
                write!(f, "refused with {number} at byte {place}: {}", reason.sentence())
            }
            Some(reason) => write!(f, "refused with {number}: {}", reason.sentence()),
            None => write!(f, "refused with {number}"),
        }
    }
}

impl Error for Refusal {}
