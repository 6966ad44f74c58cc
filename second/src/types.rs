//! Section 4: the types of expressions, from the lists of section 11.

use std::fmt;

use crate::expression::{Expression, Infix, UNARY_MINUS};
use crate::number::Number;

/// The types an expression can have; one without a type is untypeable.
#[derive(Clone, Copy, Debug, PartialEq, Eq)]
pub enum Type {
    Text,
    Integer,
    Real,
    SetofText,
    SetofInteger,
    SetofReal,
    SetofAnything,
    TruthValue,
}

use Type::*;

impl fmt::Display for Type {
    fn fmt(&self, out: &mut fmt::Formatter) -> fmt::Result {
        out.write_str(match self {
            Text => "text",
            Integer => "integer",
            Real => "real",
            SetofText => "setof_text",
            SetofInteger => "setof_integer",
            SetofReal => "setof_real",
            SetofAnything => "setof_anything",
            TruthValue => "truth_value",
        })
    }
}

impl Type {
    /// Section 4.2: whether this type is `other` or promotes to it.
    pub fn serves_as(self, other: Type) -> bool {
        self == other
            || match self {
                Integer => other == Real,
                SetofInteger => other == SetofReal,
                SetofAnything => matches!(other, SetofText | SetofInteger | SetofReal),
                _ => false,
            }
    }
}

/// Where an expression finds the types of the data items.
pub trait Scope {
    /// The type of the data item with this name, letter case ignored (9.5).
    fn item_type(&self, name: &str) -> Option<Type>;
}

/// One allowed type of an operator: what it takes and what it gives.
pub type Signature = (&'static [Type], Type);

/// The allowed types of an infix operator, in the order of section 11.1.
pub fn infix_signatures(operator: Infix) -> &'static [Signature] {
    match operator {
        Infix::Or | Infix::And => &[(&[TruthValue, TruthValue], TruthValue)],
        Infix::Plus | Infix::Minus | Infix::Times => &[(&[Integer, Integer], Integer), (&[Real, Real], Real)],
        Infix::Over => &[(&[Real, Real], Real)],
        Infix::Includes => &[(&[SetofText, Text], TruthValue), (&[SetofReal, Real], TruthValue)],
        Infix::Oneof => &[(&[Text, SetofText], TruthValue), (&[Real, SetofReal], TruthValue)],
        _ => &[
            (&[Real, Real], TruthValue),
            (&[Text, Text], TruthValue),
            (&[SetofReal, SetofReal], TruthValue),
            (&[SetofText, SetofText], TruthValue),
        ],
    }
}

/// The allowed types of a functor, in the order of section 11.2; none for a
/// name that is no functor of this edition.
pub fn functor_signatures(functor: &str) -> &'static [Signature] {
    match functor {
        "if" => &[
            (&[TruthValue, TruthValue, TruthValue], TruthValue),
            (&[TruthValue, Integer, Integer], Integer),
            (&[TruthValue, Real, Real], Real),
            (&[TruthValue, Text, Text], Text),
            (&[TruthValue, SetofInteger, SetofInteger], SetofInteger),
            (&[TruthValue, SetofReal, SetofReal], SetofReal),
            (&[TruthValue, SetofText, SetofText], SetofText),
        ],
        UNARY_MINUS => &[(&[Integer], Integer), (&[Real], Real)],
        "isknown" => &[
            (&[Text], TruthValue),
            (&[Real], TruthValue),
            (&[SetofText], TruthValue),
            (&[SetofReal], TruthValue),
            (&[TruthValue], TruthValue),
        ],
        "not" => &[(&[TruthValue], TruthValue)],
        "count" => &[(&[SetofReal], Integer), (&[SetofText], Integer)],
        "sum" => &[(&[SetofInteger], Integer), (&[SetofReal], Real)],
        "max" | "min" => &[(&[SetofInteger], Integer), (&[SetofReal], Real), (&[SetofText], Text)],
        "nth" => &[
            (&[Integer, SetofInteger], Integer),
            (&[Integer, SetofReal], Real),
            (&[Integer, SetofText], Text),
        ],
        "is_dormant" | "is_in_progress" | "is_discarded" | "is_completed" => &[(&[Text], TruthValue)],
        _ => &[],
    }
}

/// Section 4.1: the type of an expression, if it has one.
pub fn infer(expression: &Expression, scope: &dyn Scope) -> Option<Type> {
    let all =
        |parts: &[Expression]| -> Option<Vec<Type>> { parts.iter().map(|part| infer(part, scope)).collect() };
    match expression {
        Expression::Atom(name) => Some(scope.item_type(name).unwrap_or(Text)),
        Expression::Number(Number::Integer(_)) => Some(Integer),
        Expression::Number(Number::Real(_)) => Some(Real),
        Expression::Text(_) => Some(Text),
        Expression::Parenthesis(inner) => infer(inner, scope),
        Expression::List(elements) => list_type(&all(elements)?),
        Expression::Infix(operator, left, right) => {
            let operands = [infer(left, scope)?, infer(right, scope)?];
            applied(infix_signatures(*operator), &operands)
        }
        Expression::Call(functor, arguments) => applied(functor_signatures(functor), &all(arguments)?),
    }
}

/// Rules 8 and 9.
fn list_type(elements: &[Type]) -> Option<Type> {
    let all = |allowed: &[Type]| elements.iter().all(|element| allowed.contains(element));
    match () {
        _ if elements.is_empty() => Some(SetofAnything),
        _ if all(&[Text]) => Some(SetofText),
        _ if all(&[Integer]) => Some(SetofInteger),
        _ if all(&[Integer, Real]) => Some(SetofReal),
        _ => None,
    }
}

/// Rule 10: the entry that fits exactly, else the first that promotion reaches.
fn applied(signatures: &[Signature], operands: &[Type]) -> Option<Type> {
    let exactly = |signature: &&Signature| signature.0 == operands;
    let by_promotion = |signature: &&Signature| {
        signature.0.len() == operands.len()
            && operands.iter().zip(signature.0).all(|(operand, wanted)| operand.serves_as(*wanted))
    };
    let found = signatures.iter().find(exactly);
    found.or_else(|| signatures.iter().find(by_promotion)).map(|signature| signature.1)
}
