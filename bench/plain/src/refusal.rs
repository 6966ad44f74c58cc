//! A refusal: document 01's number, and the byte place that counts.

use std::fmt;

/// Why load (1 to 6, 10) or another call (6 to 9) is refused; the numbers are
/// document 01's.
#[derive(Clone, Copy, Debug, PartialEq, Eq)]
pub enum Reason {
    Bytes = 1,
    Lexical = 2,
    Grammar = 3,
    Names = 4,
    Types = 5,
    Limit = 6,
    NothingRuns = 7,
    NoComponent = 8,
    Kind = 9,
    LeftOut = 10,
}

/// Why a text or a call is refused, and where.
#[derive(Clone, Copy, Debug, PartialEq, Eq)]
pub struct Refusal {
    pub reason: Reason,
    pub place: usize,
}

impl Reason {
    pub fn at(self, place: usize) -> Refusal {
        Refusal { reason: self, place }
    }

    /// The refusal of a call other than load, which has place 0.
    pub fn of_call(self) -> Refusal {
        self.at(0)
    }

    /// Refuses if there is a place.
    pub fn at_any(self, place: Option<usize>) -> Result<(), Refusal> {
        match place {
            Some(place) => Err(self.at(place)),
            None => Ok(()),
        }
    }
}

impl fmt::Display for Refusal {
    fn fmt(&self, out: &mut fmt::Formatter) -> fmt::Result {
        write!(out, "refused {} {}", self.reason as u8, self.place)
    }
}

/// The smallest place so far: breaches are noted in any order.
#[derive(Clone, Copy, Debug, Default)]
pub struct Smallest(pub Option<usize>);

impl Smallest {
    pub fn note(&mut self, place: usize) {
        self.0 = Some(self.0.map_or(place, |smallest| smallest.min(place)));
    }
}
