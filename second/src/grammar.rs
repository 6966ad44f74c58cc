//! The grammar: `grammar.bnf`, which is section 3.2 production by production,
//! read once into numbers. The reserved strings come from it too: they are the
//! strings in double quotes (section 2).

use std::sync::OnceLock;

use crate::token::{Kind, Token};

/// What may stand on the right side of a production.
#[derive(Clone, Copy, Debug, PartialEq, Eq)]
pub enum Symbol {
    /// A nonterminal, by its number.
    Nonterminal(usize),
    /// A terminal, by its number.
    Terminal(usize),
}

/// What a token must be.
#[derive(Clone, Debug, PartialEq, Eq)]
enum Terminal {
    /// This reserved string, by its number.
    Reserved(usize),
    Atom,
    /// An atom with one of these inner texts (section 3.3).
    AtomOneOf(Vec<&'static str>),
    Integer,
    Float,
    DoubleQuotedString,
}

/// `left ::= right`.
#[derive(Clone, Debug, PartialEq, Eq)]
pub struct Production {
    pub left: usize,
    pub right: Vec<Symbol>,
}

/// A context-free grammar over the tokens of section 2.
#[derive(Clone, Debug, Default)]
pub struct Grammar {
    reserved: Vec<&'static str>,
    nonterminals: Vec<&'static str>,
    terminals: Vec<Terminal>,
    productions: Vec<Production>,
    /// For each nonterminal the numbers of its productions.
    of: Vec<Vec<usize>>,
    /// For each nonterminal whether it derives the empty sequence.
    nullable: Vec<bool>,
}

/// The grammar that texts are read with: as printed, but with the operators
/// regrouped so that there is one derivation for each sentence.
pub fn grammar() -> &'static Grammar {
    static GRAMMAR: OnceLock<Grammar> = OnceLock::new();
    GRAMMAR.get_or_init(|| Grammar::as_printed().regrouped())
}

impl Grammar {
    /// The productions as `grammar.bnf` holds them.
    pub fn as_printed() -> Grammar {
        Grammar::read(include_str!("grammar.bnf"), &[])
    }

    /// The grammar of a text in the notation of `grammar.bnf`. Its reserved
    /// strings are numbered after those given.
    pub fn read(text: &'static str, reserved: &[&'static str]) -> Grammar {
        let mut grammar = Grammar { reserved: reserved.to_vec(), ..Grammar::default() };
        let lines = text.lines();
        for line in lines.filter(|line| line.starts_with('<')) {
            let (left, right) = line.split_once(" ::= ").expect("a production has '::='");
            let left = grammar.nonterminal(unbracketed(left));
            let right = grammar.right_side(right);
            grammar.productions.push(Production { left, right });
        }
        grammar.indexed()
    }

    /// Reads a right side, word by word. A name that has no production of its
    /// own and is no kind of token becomes a nonterminal that derives nothing.
    fn right_side(&mut self, right: &'static str) -> Vec<Symbol> {
        if let Some(list) = right.strip_prefix("<atom> (one of ") {
            let allowed = list.trim_end_matches(')').split(' ').collect();
            return vec![self.terminal(Terminal::AtomOneOf(allowed))];
        }
        let words = right.split(' ').filter(|word| *word != "<empty>");
        words.map(|word| self.symbol(word)).collect()
    }

    fn symbol(&mut self, word: &'static str) -> Symbol {
        match word {
            "<atom>" => self.terminal(Terminal::Atom),
            "<integer>" => self.terminal(Terminal::Integer),
            "<float>" => self.terminal(Terminal::Float),
            "<double_quoted_string>" => self.terminal(Terminal::DoubleQuotedString),
            _ if word.starts_with('"') => {
                let number = number_of(&mut self.reserved, &word[1..word.len() - 1]);
                self.terminal(Terminal::Reserved(number))
            }
            _ => Symbol::Nonterminal(self.nonterminal(unbracketed(word))),
        }
    }

    fn nonterminal(&mut self, name: &'static str) -> usize {
        number_of(&mut self.nonterminals, name)
    }

    fn terminal(&mut self, terminal: Terminal) -> Symbol {
        Symbol::Terminal(number_of(&mut self.terminals, terminal))
    }

    /// Where the grammar prints `X ::= X op X`, the same sentences come from
    /// `X ::= X op operand` and `X ::= operand`, the operand taking over the
    /// other productions of X; `"-" X` becomes `"-" operand`. So a chain of
    /// operators has one derivation and the recogniser's work stays small.
    /// How the operators bind is no matter here (see `grouping`).
    pub fn regrouped(mut self) -> Grammar {
        for x in 0..self.nonterminals.len() {
            let own = Symbol::Nonterminal(x);
            let is_infix = |right: &[Symbol]| right.len() == 3 && right[0] == own && right[2] == own;
            if !self.of[x].iter().any(|number| is_infix(&self.productions[*number].right)) {
                continue;
            }
            let name = format!("{}_operand", self.nonterminals[x]);
            let operand = self.nonterminal(name.leak());
            for production in self.productions.iter_mut().filter(|one| one.left == x) {
                if !is_infix(&production.right) {
                    production.left = operand;
                }
                if let Some(last) = production.right.last_mut().filter(|last| **last == own) {
                    *last = Symbol::Nonterminal(operand);
                }
            }
            self.productions.push(Production { left: x, right: vec![Symbol::Nonterminal(operand)] });
        }
        self.indexed()
    }

    /// Fills in what is worked out from the productions.
    fn indexed(mut self) -> Grammar {
        self.of = vec![Vec::new(); self.nonterminals.len()];
        for (number, production) in self.productions.iter().enumerate() {
            self.of[production.left].push(number);
        }
        self.nullable = self.closure(|_| false);
        self
    }

    /// The nonterminals that derive a sequence of terminals that all pass.
    fn closure(&self, passes: impl Fn(usize) -> bool) -> Vec<bool> {
        let mut derives = vec![false; self.nonterminals.len()];
        loop {
            let holds = |symbol: &Symbol| match symbol {
                Symbol::Nonterminal(number) => derives[*number],
                Symbol::Terminal(number) => passes(*number),
            };
            let next = self.productions.iter().find(|one| !derives[one.left] && one.right.iter().all(holds));
            match next.map(|production| production.left) {
                Some(left) => derives[left] = true,
                None => return derives,
            }
        }
    }

    /// The nonterminals that derive no sequence of tokens at all.
    pub fn unproductive(&self) -> Vec<&'static str> {
        let productive = self.closure(|_| true);
        let names = self.nonterminals.iter().zip(productive);
        names.filter(|(_, productive)| !productive).map(|(name, _)| *name).collect()
    }

    /// The reserved words and symbols, in the order of first appearance.
    pub fn reserved(&self) -> &[&'static str] {
        &self.reserved
    }

    /// The number of the nonterminal with this name.
    pub fn find(&self, name: &str) -> usize {
        let found = self.nonterminals.iter().position(|one| *one == name);
        found.expect("the grammar has this nonterminal")
    }

    /// How many nonterminals there are.
    pub fn nonterminal_count(&self) -> usize {
        self.nonterminals.len()
    }

    /// The name of a nonterminal.
    pub fn name(&self, nonterminal: usize) -> &'static str {
        self.nonterminals[nonterminal]
    }

    /// The numbers of the productions of a nonterminal.
    pub fn productions_of(&self, nonterminal: usize) -> &[usize] {
        &self.of[nonterminal]
    }

    /// The production with this number.
    pub fn production(&self, number: usize) -> &Production {
        &self.productions[number]
    }

    /// Whether a nonterminal derives the empty sequence.
    pub fn is_nullable(&self, nonterminal: usize) -> bool {
        self.nullable[nonterminal]
    }

    /// Whether a token can stand for a terminal.
    pub fn fits(&self, terminal: usize, token: &Token) -> bool {
        match &self.terminals[terminal] {
            Terminal::Reserved(number) => token.kind == Kind::Reserved(*number),
            Terminal::Atom => token.is_atom(),
            Terminal::AtomOneOf(allowed) => token.is_atom() && allowed.contains(&token.inner()),
            Terminal::Integer => token.kind == Kind::Integer,
            Terminal::Float => matches!(token.kind, Kind::Float | Kind::ExponentFloat),
            Terminal::DoubleQuotedString => token.kind == Kind::DoubleQuotedString,
        }
    }
}

/// The place of `thing` in `list`, where it is put if it is not there yet.
fn number_of<T: PartialEq>(list: &mut Vec<T>, thing: T) -> usize {
    list.iter().position(|one| *one == thing).unwrap_or_else(|| {
        list.push(thing);
        list.len() - 1
    })
}

/// `<name>` without its angle brackets.
fn unbracketed(word: &str) -> &str {
    word.trim_start_matches('<').trim_end_matches('>')
}
