//! The operators and functors of section 11 that the first edition has.

use crate::terms::TaskState;

/// The infix operators, synonyms as one.
#[derive(Clone, Copy, Debug, PartialEq, Eq)]
pub enum Infix {
    Or,
    And,
    Less,
    LessOrEqual,
    Greater,
    GreaterOrEqual,
    Equal,
    NotEqual,
    Includes,
    Oneof,
    Plus,
    Minus,
    Times,
    Over,
}

/// The prefix functors, unary minus among them.
#[derive(Clone, Copy, Debug, PartialEq, Eq)]
pub enum Functor {
    If,
    Minus,
    Isknown,
    Not,
    Count,
    Sum,
    Max,
    Min,
    Nth,
    /// `is_dormant` and its three fellows.
    Is(TaskState),
    /// A name that section 11 doesn't have: a call of it has no type.
    Nothing,
}

impl Functor {
    /// The functor of a name, or none if it is left out of the first edition.
    pub fn named(name: &[u8]) -> Option<Functor> {
        Some(match name {
            b"if" => Functor::If,
            b"-" => Functor::Minus,
            b"isknown" => Functor::Isknown,
            b"not" => Functor::Not,
            b"count" => Functor::Count,
            b"sum" => Functor::Sum,
            b"max" => Functor::Max,
            b"min" => Functor::Min,
            b"nth" => Functor::Nth,
            b"is_dormant" => Functor::Is(TaskState::Dormant),
            b"is_in_progress" => Functor::Is(TaskState::InProgress),
            b"is_discarded" => Functor::Is(TaskState::Discarded),
            b"is_completed" => Functor::Is(TaskState::Completed),
            b"in_progress_time" | b"discarded_time" | b"completed_time" => return None,
            b"union" | b"diff" | b"intersect" | b"abs" | b"exp" | b"ln" | b"random" => return None,
            b"sin" | b"cos" | b"tan" | b"asin" | b"acos" | b"atan" => return None,
            _ => Functor::Nothing,
        })
    }
}
