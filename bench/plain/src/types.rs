//! Section 4: types, promotion, and the allowed types that section 11 lists.

use crate::operators::{Functor, Infix};
use crate::terms::DeclaredType;

/// The types an expression can have; one without a type is untypeable.
#[derive(Clone, Copy, Debug, PartialEq, Eq)]
pub enum Type {
    Text,
    Integer,
    Real,
    SetofText,
    SetofInteger,
    SetofReal,
    SetofAnything,
    TruthValue,
}

use Type::*;

/// One allowed type of an operator: what it takes and what it gives.
pub type Signature = (&'static [Type], Type);

impl Type {
    /// 4.2: whether this type is `other` or promotes to it.
    pub fn serves_as(self, other: Type) -> bool {
        self == other
            || match self {
                Integer => other == Real,
                SetofInteger => other == SetofReal,
                SetofAnything => matches!(other, SetofText | SetofInteger | SetofReal),
                _ => false,
            }
    }

    /// The type of a list (4.1, 8 and 9) that has this type so far, with one
    /// more element.
    pub fn with_element(self, element: Type) -> Option<Type> {
        Some(match (self, element) {
            (SetofAnything | SetofText, Text) => SetofText,
            (SetofAnything | SetofInteger, Integer) => SetofInteger,
            (SetofAnything | SetofInteger | SetofReal, Integer | Real) => SetofReal,
            _ => return None,
        })
    }
}

impl DeclaredType {
    /// The type of references to an item so declared (4.3).
    pub fn inferred(self) -> Type {
        match self {
            DeclaredType::Text | DeclaredType::Boolean => Text,
            DeclaredType::Integer => Integer,
            DeclaredType::Real | DeclaredType::Datetime | DeclaredType::Date | DeclaredType::Time => Real,
            DeclaredType::SetofText => SetofText,
            DeclaredType::SetofInteger => SetofInteger,
            DeclaredType::SetofReal => SetofReal,
        }
    }
}

/// 4.1, 10: the entry that fits exactly, else the first that promotion reaches.
pub fn applied(signatures: &[Signature], operands: &[Type]) -> Option<Type> {
    let by_promotion = |signature: &&Signature| {
        let mut pairs = operands.iter().zip(signature.0);
        signature.0.len() == operands.len() && pairs.all(|(operand, wanted)| operand.serves_as(*wanted))
    };
    let exact = signatures.iter().find(|signature| signature.0 == operands);
    exact.or_else(|| signatures.iter().find(by_promotion)).map(|signature| signature.1)
}

impl Infix {
    /// The allowed types, in the order of 11.1.
    pub fn signatures(self) -> &'static [Signature] {
        match self {
            Infix::Or | Infix::And => &[(&[TruthValue, TruthValue], TruthValue)],
            Infix::Plus | Infix::Minus | Infix::Times => {
                &[(&[Integer, Integer], Integer), (&[Real, Real], Real)]
            }
            Infix::Over => &[(&[Real, Real], Real)],
            Infix::Includes => &[(&[SetofText, Text], TruthValue), (&[SetofReal, Real], TruthValue)],
            Infix::Oneof => &[(&[Text, SetofText], TruthValue), (&[Real, SetofReal], TruthValue)],
            _ => &[
                (&[Real, Real], TruthValue),
                (&[Text, Text], TruthValue),
                (&[SetofReal, SetofReal], TruthValue),
                (&[SetofText, SetofText], TruthValue),
            ],
        }
    }
}

impl Functor {
    /// The allowed types, in the order of 11.2.
    pub fn signatures(self) -> &'static [Signature] {
        match self {
            Functor::If => &[
                (&[TruthValue, TruthValue, TruthValue], TruthValue),
                (&[TruthValue, Integer, Integer], Integer),
                (&[TruthValue, Real, Real], Real),
                (&[TruthValue, Text, Text], Text),
                (&[TruthValue, SetofInteger, SetofInteger], SetofInteger),
                (&[TruthValue, SetofReal, SetofReal], SetofReal),
                (&[TruthValue, SetofText, SetofText], SetofText),
            ],
            Functor::Minus => &[(&[Integer], Integer), (&[Real], Real)],
            Functor::Isknown => &[
                (&[Text], TruthValue),
                (&[Real], TruthValue),
                (&[SetofText], TruthValue),
                (&[SetofReal], TruthValue),
                (&[TruthValue], TruthValue),
            ],
            Functor::Not => &[(&[TruthValue], TruthValue)],
            Functor::Count => &[(&[SetofReal], Integer), (&[SetofText], Integer)],
            Functor::Sum => &[(&[SetofInteger], Integer), (&[SetofReal], Real)],
            Functor::Max | Functor::Min => {
                &[(&[SetofInteger], Integer), (&[SetofReal], Real), (&[SetofText], Text)]
            }
            Functor::Nth => &[
                (&[Integer, SetofInteger], Integer),
                (&[Integer, SetofReal], Real),
                (&[Integer, SetofText], Text),
            ],
            Functor::Is(_) => &[(&[Text], TruthValue)],
            Functor::Nothing => &[],
        }
    }
}
