//! Every row of a guideline, one after the other.

use crate::guideline::Guideline;
use crate::row::{kind, property, Component, Row};

/// The rows by kind, then component, then property.
#[derive(Clone, Debug)]
pub struct Rows<'a> {
    guideline: &'a Guideline,
    /// The place of the kind in `kind::ALL`.
    rank: usize,
    number: u64,
    property: u64,
}

impl<'a> Rows<'a> {
    pub(crate) fn of(guideline: &'a Guideline) -> Rows<'a> {
        Rows { guideline, rank: 0, number: 0, property: 0 }
    }
}

impl Iterator for Rows<'_> {
    /// Whose row it is, its property, and what it shows.
    type Item = (Component, u64, Row);

    fn next(&mut self) -> Option<(Component, u64, Row)> {
        loop {
            let component = Component { kind: *kind::ALL.get(self.rank)?, number: self.number };
            let property = self.property;
            let row = self.guideline.read(component, property).ok().flatten();
            (self.rank, self.number, self.property) = match (&row, property) {
                // Every component has a class: those of this kind are at an end.
                (None, property::CLASS) => (self.rank + 1, 0, 0),
                (_, property::LAST) => (self.rank, self.number + 1, 0),
                _ => (self.rank, self.number, property + 1),
            };
            if let Some(row) = row {
                return Some((component, property, row));
            }
        }
    }
}
