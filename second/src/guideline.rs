//! A loaded guideline: plain data, numbered in the order of the text, with all
//! names of components, constraints, sources and targets resolved.

use crate::expression::Expression;
use crate::types::Type;

/// The classes of task that run in this edition.
#[derive(Clone, Copy, Debug, PartialEq, Eq, Hash)]
pub enum TaskClass {
    Plan,
    Action,
    Enquiry,
}

/// The states of a task (7.5).
#[derive(Clone, Copy, Debug, PartialEq, Eq, Hash)]
pub enum TaskState {
    Dormant,
    InProgress,
    Discarded,
    Completed,
}

/// The ten data types that may be declared (4.3).
#[derive(Clone, Copy, Debug, PartialEq, Eq, Hash)]
pub enum DeclaredType {
    Text,
    Integer,
    Boolean,
    Datetime,
    Date,
    Time,
    Real,
    SetofText,
    SetofInteger,
    SetofReal,
}

/// A loaded guideline; task 0 is the root.
#[derive(Clone, Debug, PartialEq, Eq)]
pub struct Guideline {
    pub tasks: Vec<Task>,
    pub data_items: Vec<DataItem>,
    pub sources: Vec<Source>,
}

/// A task; other tasks, items and sources are given by number.
#[derive(Clone, Debug, PartialEq, Eq)]
pub struct Task {
    pub class: TaskClass,
    pub name: String,
    pub parent_plan: Option<usize>,
    pub antecedent_tasks: Vec<usize>,
    pub terminal: Option<bool>,
    pub caption: Option<Expression>,
    pub description: Option<Expression>,
    pub precondition: Option<Expression>,
    pub wait_condition: Option<Expression>,
    pub terminate_condition: Option<Expression>,
    pub trigger: Option<String>,
    /// `None` if there is no postcondition; an assignment is an item's number
    /// and the expression.
    pub postcondition: Option<Vec<(usize, Expression)>>,
    pub sources: Vec<usize>,
}

/// A data item.
#[derive(Clone, Debug, PartialEq, Eq)]
pub struct DataItem {
    pub name: String,
    pub declared: DeclaredType,
    pub caption: Option<Expression>,
    pub description: Option<Expression>,
}

/// A source of an enquiry.
#[derive(Clone, Debug, PartialEq, Eq)]
pub struct Source {
    pub data_item: usize,
    pub mandatory: Option<bool>,
    pub caption: Option<Expression>,
    pub description: Option<Expression>,
}

impl DeclaredType {
    /// The names that section 3.3 lists.
    pub const ALL: [(&'static str, DeclaredType); 10] = [
        ("text", DeclaredType::Text),
        ("integer", DeclaredType::Integer),
        ("boolean", DeclaredType::Boolean),
        ("datetime", DeclaredType::Datetime),
        ("date", DeclaredType::Date),
        ("time", DeclaredType::Time),
        ("real", DeclaredType::Real),
        ("setof_text", DeclaredType::SetofText),
        ("setof_integer", DeclaredType::SetofInteger),
        ("setof_real", DeclaredType::SetofReal),
    ];

    /// The type that this atom declares; the grammar lets no other atom through.
    pub fn named(name: &str) -> DeclaredType {
        let found = DeclaredType::ALL.iter().find(|entry| entry.0 == name);
        found.expect("section 3.3 has no other data type").1
    }

    /// The type inferred for references to an item so declared (4.3).
    pub fn inferred(self) -> Type {
        match self {
            DeclaredType::Text | DeclaredType::Boolean => Type::Text,
            DeclaredType::Integer => Type::Integer,
            DeclaredType::Datetime | DeclaredType::Date | DeclaredType::Time => Type::Real,
            DeclaredType::Real => Type::Real,
            DeclaredType::SetofText => Type::SetofText,
            DeclaredType::SetofInteger => Type::SetofInteger,
            DeclaredType::SetofReal => Type::SetofReal,
        }
    }
}
