//! Values (7.4): what an expression comes to, and how values compare.

use std::cmp::Ordering;
use std::rc::Rc;

use crate::number::Number;

/// A PROforma value. Texts and lists are shared, so that copying one in a
/// cycle allocates nothing.
#[derive(Clone, Debug, Default, PartialEq, Eq)]
pub enum Value {
    #[default]
    Unknown,
    Truth(bool),
    Number(Number),
    Text(Rc<[u8]>),
    List(Rc<[Value]>),
}

impl Value {
    /// A number, or unknown if it came to none.
    pub fn number(number: Option<Number>) -> Value {
        number.map_or(Value::Unknown, Value::Number)
    }

    pub fn is_true(&self) -> bool {
        matches!(self, Value::Truth(true))
    }

    pub fn as_number(&self) -> Option<Number> {
        match self {
            Value::Number(number) => Some(*number),
            _ => None,
        }
    }
}

/// *comp* of 11.1.3; `None` is its unknown. Sequences go on to their tails
/// when their heads are equal and also when their heads compare as unknown.
pub fn comp(left: &Value, right: &Value) -> Option<Ordering> {
    match (left, right) {
        (Value::Number(left), Value::Number(right)) => Some(left.compared(*right)),
        (Value::Text(left), Value::Text(right)) => Some(compared_folded(left, right)),
        (Value::List(left), Value::List(right)) => {
            let heads = left.iter().zip(right.iter()).filter_map(|(left, right)| comp(left, right));
            let decided = heads.into_iter().find(|order| order.is_ne());
            Some(decided.unwrap_or_else(|| left.len().cmp(&right.len())))
        }
        _ => None,
    }
}

/// Byte by byte with A to Z folded to a to z; a proper prefix is smaller.
pub fn compared_folded(left: &[u8], right: &[u8]) -> Ordering {
    let folded = |text: &'_ [u8], at: usize| text[at].to_ascii_lowercase();
    let common = left.len().min(right.len());
    let differ = (0..common).find(|at| folded(left, *at) != folded(right, *at));
    match differ {
        Some(at) => folded(left, at).cmp(&folded(right, at)),
        None => left.len().cmp(&right.len()),
    }
}
