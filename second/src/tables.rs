//! 8.1: the Properties table, a map from component and property to a value,
//! and the Changes table, a set of rows.

use std::collections::{BTreeMap, HashSet};

use crate::component::{Class, Component, Kind, Property};
use crate::expression::Expression;
use crate::guideline::{DeclaredType, TaskState};
use crate::number::Number;
use crate::value::Value;

/// What a row may hold: the values of 7.4, each kind apart, so that two values
/// are equal only if they are of one kind and alike in digits or bytes.
#[derive(Clone, Debug, PartialEq, Eq, Hash)]
pub enum RowValue {
    /// Unknown, a truth value, a number, a text or a list.
    Value(Value),
    /// An engine time: it passes the limit on integers.
    Time(u32),
    State(TaskState),
    Class(Class),
    Type(DeclaredType),
    Component(Component),
    Components(Vec<Component>),
    Expression(Expression),
    /// Assignments: the data item and the expression.
    Assertion(Vec<(Component, Expression)>),
}

impl RowValue {
    pub const UNKNOWN: RowValue = RowValue::Value(Value::Unknown);
    pub const TRUE: RowValue = RowValue::Value(Value::Truth(true));
    pub const FALSE: RowValue = RowValue::Value(Value::Truth(false));

    pub fn truth(truth: bool) -> RowValue {
        RowValue::Value(Value::Truth(truth))
    }

    pub fn integer(integer: i64) -> RowValue {
        RowValue::Value(Value::Number(Number::Integer(integer)))
    }

    pub fn text(text: &str) -> RowValue {
        RowValue::Value(Value::Text(text.to_string()))
    }
}

/// A row of the Changes table: which property of which component is to have
/// which value.
pub type Row = (Component, Property, RowValue);

/// The Changes table.
pub type Changes = HashSet<Row>;

/// The Properties table. The map keeps its rows by kind, component and
/// property, which is the order in which they are told.
#[derive(Clone, Debug, Default, PartialEq, Eq)]
pub struct Properties(BTreeMap<(Component, Property), RowValue>);

impl Properties {
    /// The value in a row, if the row is there.
    pub fn get(&self, component: Component, property: Property) -> Option<&RowValue> {
        self.0.get(&(component, property))
    }

    /// Whether the table contains this row.
    pub fn contains(&self, component: Component, property: Property, value: &RowValue) -> bool {
        self.get(component, property) == Some(value)
    }

    /// Adds a row in the place of the one that may be there.
    pub fn set(&mut self, component: Component, property: Property, value: RowValue) {
        self.0.insert((component, property), value);
    }

    pub fn remove(&mut self, component: Component, property: Property) {
        self.0.remove(&(component, property));
    }

    /// Every row, by kind, component and property.
    pub fn rows(&self) -> impl Iterator<Item = (Component, Property, &RowValue)> {
        self.0.iter().map(|((component, property), value)| (*component, *property, value))
    }

    /// The components of a kind: those that have a class (definitions 4 to 6).
    pub fn components(&self, kind: Kind) -> impl Iterator<Item = Component> + '_ {
        let numbered = (0..).map(move |number| Component { kind, number });
        numbered.take_while(|component| self.get(*component, Property::Class).is_some())
    }

    /// The text in a row; a name or a trigger.
    pub fn text(&self, component: Component, property: Property) -> Option<&str> {
        match self.get(component, property)? {
            RowValue::Value(Value::Text(text)) => Some(text),
            _ => None,
        }
    }

    /// The component in a row; a parent plan or a source's data item.
    pub fn component(&self, component: Component, property: Property) -> Option<Component> {
        match self.get(component, property)? {
            RowValue::Component(other) => Some(*other),
            _ => None,
        }
    }

    /// The sequence in a row; empty if the row is not there.
    pub fn sequence(&self, component: Component, property: Property) -> &[Component] {
        match self.get(component, property) {
            Some(RowValue::Components(sequence)) => sequence,
            _ => &[],
        }
    }
}
