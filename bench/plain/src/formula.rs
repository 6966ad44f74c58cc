//! Formulas: expressions that have a type, with items and tasks by number; and
//! their values by sections 9 and 11.

use std::cmp::Ordering;

use crate::number::Number;
use crate::operators::{Functor, Infix};
use crate::terms::TaskState;
use crate::value::{comp, Value};

#[derive(Clone, Debug)]
pub enum Formula {
    Constant(Value),
    /// The value of a data item.
    Item(usize),
    List(Box<[Formula]>),
    Infix(Infix, Box<[Formula; 2]>),
    Call(Functor, Box<[Formula]>),
    /// Whether a task is in a state.
    TaskIs(TaskState, usize),
}

/// What a formula may ask of the guideline as it stands.
pub trait Situation {
    fn item_value(&self, item: usize) -> Value;
    fn task_state(&self, task: usize) -> TaskState;
    /// The task whose name row is this, letter case ignored (9.6).
    fn task_named(&self, name: &[u8]) -> Option<usize>;
}

impl Formula {
    /// Evaluate(E, T) of 9.1.
    pub fn value(&self, situation: &impl Situation) -> Value {
        match self {
            Formula::Constant(value) => value.clone(),
            Formula::Item(item) => situation.item_value(*item),
            Formula::List(elements) => {
                Value::List(elements.iter().map(|element| element.value(situation)).collect())
            }
            Formula::Infix(operator, operands) => infix(*operator, operands, situation),
            Formula::Call(functor, arguments) => call(*functor, arguments, situation),
            Formula::TaskIs(state, task) => Value::Truth(situation.task_state(*task) == *state),
        }
    }
}

/// The evaluation functions of 11.1.
fn infix(operator: Infix, [left, right]: &[Formula; 2], situation: &impl Situation) -> Value {
    let compares = |fits: fn(Ordering) -> bool| {
        Value::Truth(comp(&left.value(situation), &right.value(situation)).is_some_and(fits))
    };
    let works = |work: fn(Number, Number) -> Option<Number>| {
        let operands = left.value(situation).as_number().zip(right.value(situation).as_number());
        Value::number(operands.and_then(|(left, right)| work(left, right)))
    };
    match operator {
        Infix::Or => Value::Truth(left.value(situation).is_true() || right.value(situation).is_true()),
        Infix::And => Value::Truth(left.value(situation).is_true() && right.value(situation).is_true()),
        Infix::Less => compares(Ordering::is_lt),
        Infix::LessOrEqual => compares(Ordering::is_le),
        Infix::Greater => compares(Ordering::is_gt),
        Infix::GreaterOrEqual => compares(Ordering::is_ge),
        Infix::Equal => compares(Ordering::is_eq),
        Infix::NotEqual => compares(Ordering::is_ne),
        Infix::Includes => includes(&left.value(situation), &right.value(situation)),
        Infix::Oneof => includes(&right.value(situation), &left.value(situation)),
        Infix::Plus => works(Number::plus),
        Infix::Minus => works(Number::minus),
        Infix::Times => works(Number::times),
        Infix::Over => works(Number::over),
    }
}

/// 11.1.6: some element compares as equal.
fn includes(list: &Value, sought: &Value) -> Value {
    let equals = |element: &Value| comp(element, sought) == Some(Ordering::Equal);
    Value::Truth(matches!(list, Value::List(elements) if elements.iter().any(equals)))
}

/// The evaluation functions of 11.2. Typing has seen to the numbers of
/// arguments, which are one but for `if` and `nth`.
fn call(functor: Functor, arguments: &[Formula], situation: &impl Situation) -> Value {
    match (functor, arguments) {
        (Functor::If, [condition, then, otherwise]) => match condition.value(situation) {
            Value::Truth(true) => then.value(situation),
            Value::Truth(false) => otherwise.value(situation),
            _ => Value::Unknown,
        },
        (Functor::Nth, [number, list]) => nth(number.value(situation), list.value(situation)),
        (_, [argument]) => of_one(functor, argument.value(situation), situation),
        _ => Value::Unknown,
    }
}

fn of_one(functor: Functor, argument: Value, situation: &impl Situation) -> Value {
    match (functor, argument) {
        (Functor::Minus, Value::Number(number)) => Value::Number(number.negated()),
        // As printed: true when the argument is unknown.
        (Functor::Isknown, value) => Value::Truth(value == Value::Unknown),
        (Functor::Not, value) => Value::Truth(value == Value::Truth(false)),
        (Functor::Count, Value::List(elements)) => Value::Number(Number::Integer(elements.len() as i64)),
        (Functor::Sum, Value::List(elements)) => {
            Value::number(Number::total(elements.iter().map(Value::as_number)))
        }
        (Functor::Max, Value::List(elements)) => furthest(&elements, Ordering::Greater),
        (Functor::Min, Value::List(elements)) => furthest(&elements, Ordering::Less),
        (Functor::Is(state), Value::Text(name)) => match situation.task_named(&name) {
            Some(task) => Value::Truth(situation.task_state(task) == state),
            None => Value::Unknown,
        },
        _ => Value::Unknown,
    }
}

/// 11.2.7 and 11.2.8: the first known element that no other one passes. Known
/// elements of a typed list all compare, so one walk finds it.
fn furthest(elements: &[Value], passes: Ordering) -> Value {
    let mut known = elements.iter().filter(|element| **element != Value::Unknown);
    let Some(mut best) = known.next() else {
        return Value::Unknown;
    };
    for element in known {
        if comp(element, best) == Some(passes) {
            best = element;
        }
    }
    best.clone()
}

/// 11.2.9: counted from 1.
fn nth(number: Value, list: Value) -> Value {
    let (Value::Number(Number::Integer(number)), Value::List(elements)) = (number, list) else {
        return Value::Unknown;
    };
    let found = usize::try_from(number - 1).ok().and_then(|index| elements.get(index));
    found.cloned().unwrap_or_default()
}
