//! Expressions as plain data.

use crate::number::Number;

/// The infix operators of the first edition, synonyms as one.
#[derive(Clone, Copy, Debug, PartialEq, Eq, Hash)]
pub enum Infix {
    Or,
    And,
    Less,
    LessOrEqual,
    Greater,
    GreaterOrEqual,
    Equal,
    NotEqual,
    Includes,
    Oneof,
    Plus,
    Minus,
    Times,
    Over,
}

/// The name of unary minus, which is typed and evaluated as a functor.
pub const UNARY_MINUS: &str = "-";

/// An expression by its parts.
#[derive(Clone, Debug, PartialEq, Eq, Hash)]
pub enum Expression {
    /// A name: a data item's, or else a text.
    Atom(String),
    Number(Number),
    /// A double quoted string.
    Text(String),
    Parenthesis(Box<Expression>),
    Infix(Infix, Box<Expression>, Box<Expression>),
    /// A functor and what it is applied to; unary minus among them.
    Call(String, Vec<Expression>),
    List(Vec<Expression>),
}

/// A whole expression as an attribute or an assignment has it, measured.
#[derive(Clone, Debug, PartialEq, Eq)]
pub struct Outermost {
    /// The place of its first byte.
    pub place: usize,
    pub expression: Expression,
    /// 1 for an atom or constant; each operator, call, list or parenthesis adds 1.
    pub depth: usize,
    /// Atoms, constants, operators, calls and lists.
    pub parts: usize,
    /// The most elements that one list in it has.
    pub longest_list: usize,
}
