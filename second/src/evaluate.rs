//! Sections 9.1 and 11: the value of an expression that has a type.

use std::cmp::Ordering;

use crate::expression::{Expression, Infix, UNARY_MINUS};
use crate::guideline::TaskState;
use crate::number::{self, Number};
use crate::value::{comp, Value};

/// What an expression may ask of the guideline as it stands.
pub trait State {
    /// The value of the data item with this name, letter case ignored; `None`
    /// if there is no such item (9.2, 9.5).
    fn item_value(&self, name: &str) -> Option<Value>;

    /// Whether the task with this name, letter case ignored, is in this state;
    /// `None` if the name finds no task (9.6).
    fn task_is(&self, name: &str, state: TaskState) -> Option<bool>;
}

/// Evaluate(E, T) of 9.1.
pub fn evaluate(expression: &Expression, state: &dyn State) -> Value {
    let each =
        |parts: &[Expression]| -> Vec<Value> { parts.iter().map(|part| evaluate(part, state)).collect() };
    match expression {
        Expression::Atom(name) => state.item_value(name).unwrap_or_else(|| Value::Text(name.clone())),
        Expression::Number(number) => Value::Number(*number),
        Expression::Text(text) => Value::Text(text.clone()),
        Expression::Parenthesis(inner) => evaluate(inner, state),
        Expression::List(elements) => Value::List(each(elements)),
        Expression::Infix(operator, left, right) => {
            infix(*operator, &evaluate(left, state), &evaluate(right, state))
        }
        Expression::Call(functor, arguments) => call(functor, &each(arguments), state),
    }
}

/// The evaluation functions of 11.1.
fn infix(operator: Infix, left: &Value, right: &Value) -> Value {
    let is_true = |value: &Value| *value == Value::Truth(true);
    let compares = |fits: fn(Ordering) -> bool| comp(left, right).is_some_and(fits);
    Value::Truth(match operator {
        Infix::Plus => return arithmetic(Number::plus, left, right),
        Infix::Minus => return arithmetic(Number::minus, left, right),
        Infix::Times => return arithmetic(Number::times, left, right),
        Infix::Over => return arithmetic(Number::over, left, right),
        Infix::Or => is_true(left) || is_true(right),
        Infix::And => is_true(left) && is_true(right),
        Infix::Less => compares(Ordering::is_lt),
        Infix::LessOrEqual => compares(Ordering::is_le),
        Infix::Greater => compares(Ordering::is_gt),
        Infix::GreaterOrEqual => compares(Ordering::is_ge),
        Infix::Equal => compares(Ordering::is_eq),
        Infix::NotEqual => compares(Ordering::is_ne),
        Infix::Includes => includes(left, right),
        Infix::Oneof => includes(right, left),
    })
}

fn arithmetic(work: fn(Number, Number) -> Option<Number>, left: &Value, right: &Value) -> Value {
    match (left, right) {
        (Value::Number(left), Value::Number(right)) => Value::number(work(*left, *right)),
        _ => Value::Unknown,
    }
}

/// 11.1.6: some element compares as equal.
fn includes(list: &Value, sought: &Value) -> bool {
    let equals = |element: &Value| comp(element, sought) == Some(Ordering::Equal);
    matches!(list, Value::List(elements) if elements.iter().any(equals))
}

/// The evaluation functions of 11.2.
fn call(functor: &str, arguments: &[Value], state: &dyn State) -> Value {
    match (functor, arguments) {
        ("if", [Value::Truth(true), then, _]) => then.clone(),
        ("if", [Value::Truth(false), _, otherwise]) => otherwise.clone(),
        (UNARY_MINUS, [Value::Number(number)]) => Value::Number(number.negated()),
        // As printed: true when the argument is unknown.
        ("isknown", [value]) => Value::Truth(*value == Value::Unknown),
        ("not", [value]) => Value::Truth(*value == Value::Truth(false)),
        ("count", [Value::List(elements)]) => Value::Number(Number::Integer(elements.len() as i64)),
        ("sum", [Value::List(elements)]) => sum(elements),
        ("max", [Value::List(elements)]) => furthest(elements, Ordering::is_ge),
        ("min", [Value::List(elements)]) => furthest(elements, Ordering::is_le),
        ("nth", [Value::Number(Number::Integer(n)), Value::List(elements)]) => nth(*n, elements),
        ("is_dormant", [task]) => task_is(task, TaskState::Dormant, state),
        ("is_in_progress", [task]) => task_is(task, TaskState::InProgress, state),
        ("is_discarded", [task]) => task_is(task, TaskState::Discarded, state),
        ("is_completed", [task]) => task_is(task, TaskState::Completed, state),
        _ => Value::Unknown,
    }
}

/// 11.2.6: the empty sum is the integer 0; with anything but numbers, unknown.
fn sum(elements: &[Value]) -> Value {
    let numbers: Option<Vec<Number>> = elements
        .iter()
        .map(|element| match element {
            Value::Number(number) => Some(*number),
            _ => None,
        })
        .collect();
    Value::number(numbers.and_then(|numbers| number::total(&numbers)))
}

/// 11.2.7 and 11.2.8: the first known element that stands against every other.
fn furthest(elements: &[Value], stands: fn(Ordering) -> bool) -> Value {
    let qualifies = |one: &&Value| {
        let against = |other: &Value| comp(one, other).is_none_or(stands);
        **one != Value::Unknown && elements.iter().all(against)
    };
    elements.iter().find(qualifies).cloned().unwrap_or(Value::Unknown)
}

/// 11.2.9: counted from 1.
fn nth(n: i64, elements: &[Value]) -> Value {
    let index = usize::try_from(n).ok().and_then(|n| n.checked_sub(1));
    let found = index.and_then(|index| elements.get(index));
    found.cloned().unwrap_or(Value::Unknown)
}

/// 11.2.10; an unknown text finds no task.
fn task_is(task: &Value, asked: TaskState, state: &dyn State) -> Value {
    let answer = match task {
        Value::Text(name) => state.task_is(name, asked),
        _ => None,
    };
    answer.map_or(Value::Unknown, Value::Truth)
}
