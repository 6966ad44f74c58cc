//! A refusal: document 01's number, and the byte place that counts.

use std::fmt;

/// Why load (1 to 6, 10) or another call (6 to 9) is refused.
#[derive(Clone, Copy, Debug, PartialEq, Eq)]
pub enum Reason {
    /// 1: the text is too long or holds a byte over 127.
    Bytes,
    /// 2: no lexical rule matches.
    Lexical,
    /// 3: the tokens are not a guideline.
    Grammar,
    /// 4: a rule on names is broken.
    Names,
    /// 5: an expression has no fitting type.
    Types,
    /// 6: a limit is passed, or a lent table is too short.
    Limit,
    /// 7: nothing is loaded, or the Exception flag is set.
    NothingRuns,
    /// 8: no such task, or no such data item.
    NoComponent,
    /// 9: a value that is not unknown and not of the item's declared type.
    Kind,
    /// 10: something left out of this edition is used.
    LeftOut,
}

impl Reason {
    /// The number that document 01 gives this reason.
    pub fn number(self) -> u8 {
        match self {
            Reason::Bytes => 1,
            Reason::Lexical => 2,
            Reason::Grammar => 3,
            Reason::Names => 4,
            Reason::Types => 5,
            Reason::Limit => 6,
            Reason::NothingRuns => 7,
            Reason::NoComponent => 8,
            Reason::Kind => 9,
            Reason::LeftOut => 10,
        }
    }

    /// The refusal of a call other than load, which has place 0.
    pub fn of_call(self) -> Refusal {
        Refusal { reason: self, place: 0 }
    }

    /// Refuses at the smallest of these places, if there is one.
    pub fn at_smallest(self, places: impl IntoIterator<Item = usize>) -> Result<(), Refusal> {
        match places.into_iter().min() {
            Some(place) => Err(Refusal { reason: self, place }),
            None => Ok(()),
        }
    }
}

/// Why a text or a call is refused, and where.
#[derive(Clone, Copy, Debug, PartialEq, Eq)]
pub struct Refusal {
    pub reason: Reason,
    pub place: usize,
}

impl fmt::Display for Refusal {
    fn fmt(&self, out: &mut fmt::Formatter) -> fmt::Result {
        write!(out, "refused {} {}", self.reason.number(), self.place)
    }
}
