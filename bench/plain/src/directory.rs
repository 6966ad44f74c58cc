//! Definitions of one kind by name: sorted with letter case ignored. Names are
//! within their limit when a directory is made.

use crate::limits;
use crate::syntax::Name;

/// A name with A to Z folded to a to z, padded; it compares as one block.
#[derive(Clone, Copy, PartialEq, Eq, PartialOrd, Ord)]
struct Folded {
    bytes: [u8; limits::NAME_BYTES],
    length: usize,
}

impl Folded {
    /// None for a name that is too long to be defined.
    fn of(name: &[u8]) -> Option<Folded> {
        let mut bytes = [0; limits::NAME_BYTES];
        bytes.get_mut(..name.len())?.copy_from_slice(name);
        bytes.make_ascii_lowercase();
        Some(Folded { bytes, length: name.len() })
    }
}

struct Entry<'text> {
    folded: Folded,
    /// The number of the definition.
    number: usize,
    name: Name<'text>,
}

/// Names and the numbers of their definitions.
pub struct Directory<'text>(Vec<Entry<'text>>);

impl<'text> Directory<'text> {
    pub fn of(names: impl Iterator<Item = Name<'text>>) -> Directory<'text> {
        let entry = |(number, name): (usize, Name<'text>)| {
            Folded::of(name.text).map(|folded| Entry { folded, number, name })
        };
        let mut entries: Vec<Entry> = names.enumerate().filter_map(entry).collect();
        // Of two names that are alike the later definition stands later.
        entries.sort_unstable_by_key(|entry| (entry.folded, entry.number));
        Directory(entries)
    }

    /// The definitions whose names are alike if letter case is ignored.
    fn alike(&self, name: &[u8]) -> &[Entry<'text>] {
        let Some(folded) = Folded::of(name) else {
            return &[];
        };
        let first = self.0.partition_point(|entry| entry.folded < folded);
        let rest = &self.0[first..];
        let count = rest.iter().take_while(|entry| entry.folded == folded).count();
        &rest[..count]
    }

    /// The first definition of a name, letter case ignored.
    pub fn find_folded(&self, name: &[u8]) -> Option<usize> {
        self.alike(name).first().map(|entry| entry.number)
    }

    /// The first definition of exactly this name.
    pub fn find(&self, name: &[u8]) -> Option<usize> {
        self.find_all(name).next()
    }

    /// Every definition of exactly this name.
    pub fn find_all<'name>(&'name self, name: &'name [u8]) -> impl Iterator<Item = usize> + 'name {
        self.alike(name).iter().filter(move |entry| entry.name.text == name).map(|entry| entry.number)
    }

    /// The places of names that a definition before them has too.
    pub fn defined_twice(&self) -> impl Iterator<Item = usize> + '_ {
        let again = self.0.windows(2).filter(|pair| pair[0].folded == pair[1].folded);
        again.map(|pair| pair[1].name.place)
    }
}
