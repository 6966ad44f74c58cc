//! Earley's recogniser, for any context-free grammar. After each token it holds
//! every production that some sentence beginning with these tokens may be in
//! the middle of; the first token that leaves nothing is the first that no
//! sentence can have there.

use std::collections::HashSet;
use std::hash::{BuildHasherDefault, Hasher};

use crate::grammar::{Grammar, Symbol};
use crate::token::Token;

/// A production, how far into it we are, and the token index where it began.
#[derive(Clone, Copy, Debug, PartialEq, Eq)]
pub struct Item {
    pub production: usize,
    pub dot: usize,
    pub start: usize,
}

/// The items that hold between two tokens.
#[derive(Debug, Default)]
struct Set {
    items: Vec<Item>,
    /// The items whose next symbol is a nonterminal, with that nonterminal.
    waiting: Vec<(usize, Item)>,
}

/// The sets of items before, between and after the tokens.
pub struct Chart<'grammar> {
    pub grammar: &'grammar Grammar,
    sets: Vec<Set>,
    seen: HashSet<u64, BuildHasherDefault<Mixer>>,
}

/// A sentence's chart, or else the index of the first token that no sentence
/// can have there (the number of tokens, if more would have to follow).
pub fn recognise<'grammar>(
    grammar: &'grammar Grammar,
    start: usize,
    tokens: &[Token],
) -> Result<Chart<'grammar>, usize> {
    let sets = (0..=tokens.len()).map(|_| Set::default()).collect();
    let mut chart = Chart { grammar, sets, seen: HashSet::default() };
    chart.predict(start, 0);
    for index in 0..=tokens.len() {
        if chart.sets[index].items.is_empty() {
            return Err(index - 1);
        }
        chart.fill(index, tokens.get(index));
    }
    let is_whole = chart.completed(tokens.len()).any(|found| found == (start, 0));
    match is_whole {
        true => Ok(chart),
        false => Err(tokens.len()),
    }
}

impl Chart<'_> {
    /// Works through the set at `index`, which grows meanwhile, and puts the
    /// items that take `token` into the next set.
    fn fill(&mut self, index: usize, token: Option<&Token>) {
        let mut predicted = vec![false; self.grammar.nonterminal_count()];
        let mut next = 0;
        while let Some(item) = self.sets[index].items.get(next).copied() {
            next += 1;
            let production = self.grammar.production(item.production);
            match production.right.get(item.dot) {
                Some(Symbol::Terminal(terminal)) => {
                    if token.is_some_and(|token| self.grammar.fits(*terminal, token)) {
                        self.add(advanced(item), index + 1);
                    }
                }
                Some(Symbol::Nonterminal(nonterminal)) => {
                    self.sets[index].waiting.push((*nonterminal, item));
                    if !std::mem::replace(&mut predicted[*nonterminal], true) {
                        self.predict(*nonterminal, index);
                    }
                    if self.grammar.is_nullable(*nonterminal) {
                        self.add(advanced(item), index);
                    }
                }
                None => self.complete(production.left, item.start, index),
            }
        }
    }

    /// `nonterminal` may begin at `index`.
    fn predict(&mut self, nonterminal: usize, index: usize) {
        for production in self.grammar.productions_of(nonterminal) {
            self.add(Item { production: *production, dot: 0, start: index }, index);
        }
    }

    /// `nonterminal` stands between `start` and `end`: whatever waited for it
    /// at `start` goes on. (An empty one was passed over when predicted.)
    fn complete(&mut self, nonterminal: usize, start: usize, end: usize) {
        if start == end {
            return;
        }
        for at in 0..self.sets[start].waiting.len() {
            let (awaited, item) = self.sets[start].waiting[at];
            if awaited == nonterminal {
                self.add(advanced(item), end);
            }
        }
    }

    fn add(&mut self, item: Item, index: usize) {
        if self.seen.insert(key(item, index)) {
            self.sets[index].items.push(item);
        }
    }

    /// Whether the set at `index` holds this item.
    pub fn holds(&self, item: Item, index: usize) -> bool {
        self.seen.contains(&key(item, index))
    }

    /// The nonterminals that end at `index`, and where each of them began.
    pub fn completed(&self, index: usize) -> impl Iterator<Item = (usize, usize)> + '_ {
        self.sets[index].items.iter().filter_map(|item| {
            let production = self.grammar.production(item.production);
            (item.dot == production.right.len()).then_some((production.left, item.start))
        })
    }
}

/// The item with its dot moved over one symbol.
fn advanced(item: Item) -> Item {
    Item { dot: item.dot + 1, ..item }
}

/// An item in a set as one number: 16 bits for each of its four numbers.
fn key(item: Item, index: usize) -> u64 {
    let four = [item.production, item.dot, item.start, index];
    four.iter().fold(0, |key, number| key << 16 | *number as u64)
}

/// A quick hash for keys that are numbers already.
#[derive(Default)]
struct Mixer(u64);

impl Hasher for Mixer {
    fn write(&mut self, _: &[u8]) {
        unreachable!("keys are hashed as whole numbers");
    }

    fn write_u64(&mut self, key: u64) {
        let mixed = (key ^ (key >> 29)).wrapping_mul(0x9E37_79B9_7F4A_7C15);
        self.0 = mixed ^ (mixed >> 32);
    }

    fn finish(&self) -> u64 {
        self.0
    }
}
