//! A guideline as it is written: definitions and their attributes with places.
//! Names borrow from the text and may still be wrong here.

use crate::number::Number;
use crate::operators::{Functor, Infix};
use crate::terms::{Class, DeclaredType};

/// An atom's inner bytes, and the place of its token.
#[derive(Clone, Copy, Debug)]
pub struct Name<'text> {
    pub text: &'text [u8],
    pub place: usize,
}

/// The definitions in the order of the text; the first task is the root.
#[derive(Debug, Default)]
pub struct Written<'text> {
    pub tasks: Vec<Task<'text>>,
    pub data_items: Vec<DataItem<'text>>,
}

/// A task. What stands twice is kept once; the parser notes the repetition.
#[derive(Debug)]
pub struct Task<'text> {
    pub class: Class,
    pub name: Name<'text>,
    /// Its captions and descriptions.
    pub texts: Vec<Outermost<'text>>,
    pub precondition: Option<Outermost<'text>>,
    pub wait_condition: Option<Outermost<'text>>,
    pub terminate: Option<Outermost<'text>>,
    pub trigger: Option<Name<'text>>,
    pub postcondition: Option<Vec<Assignment<'text>>>,
    pub components: Vec<Component<'text>>,
    pub sources: Vec<Source<'text>>,
}

/// `target = expression` in a postcondition.
#[derive(Debug)]
pub struct Assignment<'text> {
    pub target: Name<'text>,
    pub expression: Outermost<'text>,
}

#[derive(Debug)]
pub struct Component<'text> {
    pub name: Name<'text>,
    pub constraints: Vec<Name<'text>>,
    pub terminal: Option<bool>,
}

#[derive(Debug)]
pub struct Source<'text> {
    pub name: Name<'text>,
    pub texts: Vec<Outermost<'text>>,
    pub mandatory: Option<bool>,
}

#[derive(Debug)]
pub struct DataItem<'text> {
    pub name: Name<'text>,
    pub declared: DeclaredType,
    pub texts: Vec<Outermost<'text>>,
}

/// A whole expression, as an attribute or an assignment has it.
#[derive(Debug)]
pub struct Outermost<'text> {
    /// The place of its first byte.
    pub place: usize,
    pub expression: Expression<'text>,
}

/// An expression by its parts; parentheses are taken off.
#[derive(Debug)]
pub enum Expression<'text> {
    Atom(&'text [u8]),
    Number(Number),
    /// A double quoted string.
    Text(&'text [u8]),
    List(Vec<Expression<'text>>),
    Infix(Infix, Box<[Expression<'text>; 2]>),
    Call(Functor, Vec<Expression<'text>>),
    /// What load refuses in any case: left out, too deep, out of range.
    Refused,
}
