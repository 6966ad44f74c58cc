//! Values (7.4): what an expression comes to, and how values compare.

use std::cmp::Ordering;
use std::fmt;

use crate::number::Number;

/// A PROforma value, as far as expressions and data items have them.
#[derive(Clone, Debug, PartialEq, Eq, Hash)]
pub enum Value {
    Unknown,
    Truth(bool),
    Number(Number),
    Text(String),
    List(Vec<Value>),
}

impl Value {
    /// A number, or unknown if it came to none.
    pub fn number(number: Option<Number>) -> Value {
        number.map_or(Value::Unknown, Value::Number)
    }
}

/// *comp* of 11.1.3; `None` is its unknown. Sequences go on to their tails
/// when their heads are equal and also when their heads compare as unknown.
pub fn comp(left: &Value, right: &Value) -> Option<Ordering> {
    match (left, right) {
        (Value::Number(left), Value::Number(right)) => Some(left.compared(*right)),
        (Value::Text(left), Value::Text(right)) => Some(folded(left).cmp(&folded(right))),
        (Value::List(left), Value::List(right)) => {
            let heads = left.iter().zip(right).map(|(left, right)| comp(left, right));
            let decided = heads.flatten().find(|order| order.is_ne());
            Some(decided.unwrap_or_else(|| left.len().cmp(&right.len())))
        }
        _ => None,
    }
}

/// A name or text with A to Z folded to a to z.
pub fn folded(text: &str) -> String {
    text.to_ascii_lowercase()
}

impl fmt::Display for Value {
    fn fmt(&self, out: &mut fmt::Formatter) -> fmt::Result {
        match self {
            Value::Unknown => out.write_str("unknown"),
            Value::Truth(truth) => write!(out, "{truth}"),
            Value::Number(number) => write!(out, "{number}"),
            Value::Text(text) => out.write_str(text),
            Value::List(elements) => {
                let written: Vec<String> = elements.iter().map(Value::to_string).collect();
                write!(out, "[{}]", written.join(", "))
            }
        }
    }
}
