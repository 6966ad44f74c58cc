//! Rows of the Properties table: what they are of, and what they show. Numbers are those of docs/REPLAY.md.

use crate::raw::Shown;
use crate::value::Value;

/// A component, by its kind and its number in the order of the text.
#[derive(Clone, Copy, Debug, PartialEq, Eq, PartialOrd, Ord, Hash)]
pub struct Component {
    pub kind: u64,
    pub number: u64,
}

/// The kinds that have rows, by their rank in section 10.
pub mod kind {
    pub const TASK: u64 = 0;
    pub const DATA_ITEM: u64 = 1;
    pub const SOURCE: u64 = 5;
    /// All of them, in their order.
    pub const ALL: [u64; 3] = [TASK, DATA_ITEM, SOURCE];
}

/// Some properties by their numbers.
pub mod property {
    pub const CLASS: u64 = 0;
    pub const NAME: u64 = 1;
    pub const STATE: u64 = 6;
    pub const VALUE: u64 = 42;
    pub const REQUESTED: u64 = 50;
    pub const LAST: u64 = 58;
}

/// What a row shows.
#[derive(Clone, Debug, PartialEq, Eq, Hash)]
pub enum Row {
    /// An expression, an assertion or a list of components: it is told only that the row is there.
    There,
    Value(Value),
    State(State),
    Class(Class),
    Type(Type),
    /// An engine time, in seconds.
    Time(u32),
    Component(Component),
}

impl Row {
    /// What the cases and numbers of an answer say; `value` is asked for where it is a value that is shown.
    pub(crate) fn shown(shown: Shown, value: impl FnOnce() -> Value) -> Option<Row> {
        let Shown { shown, first, second, .. } = shown;
        match shown {
            1 => Some(Row::There),
            2 => Some(Row::Value(value())),
            3 => State::numbered(first).map(Row::State),
            4 => Class::numbered(first).map(Row::Class),
            5 => Type::numbered(first).map(Row::Type),
            6 => Some(Row::Time(first)),
            7 => Some(Row::Component(Component { kind: first.into(), number: second.into() })),
            _ => None,
        }
    }
}

/// The state of a task.
#[derive(Clone, Copy, Debug, PartialEq, Eq, Hash)]
pub enum State {
    Dormant,
    InProgress,
    Discarded,
    Completed,
}

#[derive(Clone, Copy, Debug, PartialEq, Eq, Hash)]
pub enum Class {
    DataItem,
    Plan,
    Enquiry,
    Action,
    Source,
}

/// A declared type.
#[derive(Clone, Copy, Debug, PartialEq, Eq, Hash)]
pub enum Type {
    Text,
    Integer,
    Boolean,
    Datetime,
    Date,
    Time,
    Real,
    SetofText,
    SetofInteger,
    SetofReal,
}

impl State {
    /// By document 01's numbers; none for any other.
    pub(crate) fn numbered(number: u32) -> Option<State> {
        Some(match number {
            1 => State::Dormant,
            2 => State::InProgress,
            3 => State::Discarded,
            4 => State::Completed,
            _ => return None,
        })
    }
}

impl Class {
    pub(crate) fn numbered(number: u32) -> Option<Class> {
        Some(match number {
            1 => Class::DataItem,
            3 => Class::Plan,
            5 => Class::Enquiry,
            6 => Class::Action,
            7 => Class::Source,
            _ => return None,
        })
    }
}

impl Type {
    pub(crate) fn numbered(number: u32) -> Option<Type> {
        Some(match number {
            1 => Type::Text,
            2 => Type::Integer,
            3 => Type::Boolean,
            4 => Type::Datetime,
            5 => Type::Date,
            6 => Type::Time,
            7 => Type::Real,
            8 => Type::SetofText,
            9 => Type::SetofInteger,
            10 => Type::SetofReal,
            _ => return None,
        })
    }
}
