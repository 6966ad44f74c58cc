//! The derivation of a sentence, read back from the recogniser's chart.
//! Expressions are leaves here: document 01's grouping makes their trees.

use crate::earley::{Chart, Item};
use crate::grammar::Symbol;

/// A nonterminal and the tokens `first..end` it stands for. Below it are the
/// nonterminals of its production; lists, choices and joined assertions leave
/// no node of their own, what they hold stands in their place.
#[derive(Debug)]
pub struct Tree {
    pub name: &'static str,
    pub first: usize,
    pub end: usize,
    pub children: Vec<Tree>,
}

/// A nonterminal between two places of the chart.
#[derive(Clone, Copy)]
struct Span {
    nonterminal: usize,
    first: usize,
    end: usize,
}

/// The tree of the sentence `nonterminal` between `first` and `end`.
pub fn derivation(chart: &Chart, nonterminal: usize, first: usize, end: usize) -> Tree {
    grow(chart, Span { nonterminal, first, end })
}

fn grow(chart: &Chart, span: Span) -> Tree {
    let name = chart.grammar.name(span.nonterminal);
    let mut children = Vec::new();
    let mut waiting = if is_leaf(name) { Vec::new() } else { parts(chart, span) };
    while let Some(part) = waiting.pop() {
        if leaves_no_node(chart, part) {
            waiting.extend(parts(chart, part));
        } else {
            children.push(grow(chart, part));
        }
    }
    Tree { name, first: span.first, end: span.end, children }
}

fn is_leaf(name: &str) -> bool {
    matches!(name, "expression" | "expression_without_and")
}

/// Lists and joined assertions, and productions that are one nonterminal.
fn leaves_no_node(chart: &Chart, span: Span) -> bool {
    let name = chart.grammar.name(span.nonterminal);
    let is_choice = || {
        let right = &chart.grammar.production(production_of(chart, span)).right;
        matches!(right[..], [Symbol::Nonterminal(_)])
    };
    !is_leaf(name)
        && (name.ends_with("_list")
            || name.starts_with("assertion") && name != "assertion_assignment"
            || is_choice())
}

/// A production of the span's nonterminal that has these very tokens.
fn production_of(chart: &Chart, span: Span) -> usize {
    let fits = |production: &&usize| {
        let dot = chart.grammar.production(**production).right.len();
        let item = Item { production: **production, dot, start: span.first };
        chart.holds(item, span.end)
    };
    let all = chart.grammar.productions_of(span.nonterminal);
    *all.iter().find(fits).expect("a completed nonterminal has a production")
}

/// The nonterminals on the right side of the span's production, last first.
/// An item in the chart with the dot before a symbol says that all symbols
/// before the dot end there, so each cut found from the end is a right one.
fn parts(chart: &Chart, span: Span) -> Vec<Span> {
    let production = production_of(chart, span);
    let right = &chart.grammar.production(production).right;
    let mut parts = Vec::new();
    let mut end = span.end;
    for dot in (0..right.len()).rev() {
        let before = Item { production, dot, start: span.first };
        match right[dot] {
            Symbol::Terminal(_) => end -= 1,
            Symbol::Nonterminal(nonterminal) => {
                let is_cut = |first: &usize| chart.holds(before, *first);
                let first = starts(chart, nonterminal, end).find(is_cut);
                let first = first.expect("the part before ends where this one begins");
                if first < end {
                    parts.push(Span { nonterminal, first, end });
                }
                end = first;
            }
        }
    }
    parts
}

/// Where the nonterminal that ends at `end` may have begun.
fn starts<'chart>(
    chart: &'chart Chart,
    nonterminal: usize,
    end: usize,
) -> impl Iterator<Item = usize> + 'chart {
    let nonempty = chart.completed(end).filter(move |(left, _)| *left == nonterminal);
    let empty = chart.grammar.is_nullable(nonterminal).then_some(end);
    nonempty.map(|(_, first)| first).chain(empty)
}
