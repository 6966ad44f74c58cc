//! A value as a caller gives it: judged first by kind (9), then by limits (6).

use crate::limits;
use crate::number::Number;
use crate::refusal::Reason;
use crate::types::Type;
use crate::value::Value;

/// A value that may be of the wrong kind or pass any limit.
#[derive(Clone, Debug, PartialEq, Eq)]
pub enum Given {
    Unknown,
    Truth(bool),
    Integer(i64),
    /// In thousandths.
    Real(i64),
    Text(Vec<u8>),
    List(Vec<Given>),
}

impl Given {
    /// The value for an item of this type, or why it is none.
    pub fn judged(&self, wanted: Type) -> Result<Value, Reason> {
        match self.is_of_type(wanted) {
            true => self.within_limits().ok_or(Reason::Limit),
            false => Err(Reason::Kind),
        }
    }

    /// Unknown is of every type, an integer counts as a real, and a list is of
    /// a set type if each element is of the element type.
    fn is_of_type(&self, wanted: Type) -> bool {
        let all = |elements: &[Given], wanted| elements.iter().all(|element| element.is_of_type(wanted));
        match (self, wanted) {
            (Given::Unknown, _) => true,
            (Given::Integer(_), Type::Integer | Type::Real) => true,
            (Given::Real(_), Type::Real) => true,
            (Given::Text(_), Type::Text) => true,
            (Given::List(elements), Type::SetofText) => all(elements, Type::Text),
            (Given::List(elements), Type::SetofInteger) => all(elements, Type::Integer),
            (Given::List(elements), Type::SetofReal) => all(elements, Type::Real),
            _ => false,
        }
    }

    fn within_limits(&self) -> Option<Value> {
        Some(match self {
            Given::Unknown => Value::Unknown,
            Given::Truth(truth) => Value::Truth(*truth),
            Given::Integer(integer) => Value::Number(Number::Integer(*integer).within_limit()?),
            Given::Real(thousandths) => Value::Number(Number::Real(*thousandths).within_limit()?),
            Given::Text(bytes) if is_text(bytes) => Value::Text(bytes.as_slice().into()),
            Given::List(elements) if elements.len() <= limits::LIST_ELEMENTS => {
                let values: Option<Vec<Value>> = elements.iter().map(Given::within_limits).collect();
                Value::List(values?.into())
            }
            _ => return None,
        })
    }
}

/// Whether a text or trigger that is given is within the limits.
pub fn is_text(bytes: &[u8]) -> bool {
    bytes.len() <= limits::NAME_BYTES && bytes.is_ascii()
}
