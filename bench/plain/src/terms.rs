//! Words of the paper that are small sets: classes, states, declared types.

/// The classes of task (7.1); the last two are left out of the first edition.
#[derive(Clone, Copy, Debug, PartialEq, Eq)]
pub enum Class {
    Plan,
    Action,
    Enquiry,
    Decision,
    GenericTask,
}

/// The states of a task (7.5).
#[derive(Clone, Copy, Debug, PartialEq, Eq)]
pub enum TaskState {
    Dormant,
    InProgress,
    Discarded,
    Completed,
}

/// The ten data types that may be declared (4.3).
#[derive(Clone, Copy, Debug, PartialEq, Eq)]
pub enum DeclaredType {
    Text,
    Integer,
    Boolean,
    Datetime,
    Date,
    Time,
    Real,
    SetofText,
    SetofInteger,
    SetofReal,
}

impl Class {
    pub fn name(self) -> &'static str {
        match self {
            Class::Plan => "plan",
            Class::Action => "action",
            Class::Enquiry => "enquiry",
            Class::Decision => "decision",
            Class::GenericTask => "generic_task",
        }
    }
}

impl TaskState {
    pub fn name(self) -> &'static str {
        match self {
            TaskState::Dormant => "dormant",
            TaskState::InProgress => "in_progress",
            TaskState::Discarded => "discarded",
            TaskState::Completed => "completed",
        }
    }
}

impl DeclaredType {
    /// The type that an atom declares (3.3).
    pub fn named(name: &[u8]) -> Option<DeclaredType> {
        Some(match name {
            b"text" => DeclaredType::Text,
            b"integer" => DeclaredType::Integer,
            b"boolean" => DeclaredType::Boolean,
            b"datetime" => DeclaredType::Datetime,
            b"date" => DeclaredType::Date,
            b"time" => DeclaredType::Time,
            b"real" => DeclaredType::Real,
            b"setof_text" => DeclaredType::SetofText,
            b"setof_integer" => DeclaredType::SetofInteger,
            b"setof_real" => DeclaredType::SetofReal,
            _ => return None,
        })
    }

    pub fn name(self) -> &'static str {
        match self {
            DeclaredType::Text => "text",
            DeclaredType::Integer => "integer",
            DeclaredType::Boolean => "boolean",
            DeclaredType::Datetime => "datetime",
            DeclaredType::Date => "date",
            DeclaredType::Time => "time",
            DeclaredType::Real => "real",
            DeclaredType::SetofText => "setof_text",
            DeclaredType::SetofInteger => "setof_integer",
            DeclaredType::SetofReal => "setof_real",
        }
    }
}
