//! Section 10: components, their kinds, classes and properties, in the order
//! of the print.

use crate::guideline::{DeclaredType, TaskClass, TaskState};
use std::fmt;

/// The kinds of component that the first edition has. A kind's number is its
/// rank in section 10: candidates (2), arguments (3), parameters (4) and
/// warning conditions (6) are there too.
#[derive(Clone, Copy, Debug, PartialEq, Eq, PartialOrd, Ord, Hash)]
pub enum Kind {
    Task = 0,
    DataItem = 1,
    Source = 5,
}

/// A component identifier (7.1): its kind, and its number from 0 in the order
/// of the text.
#[derive(Clone, Copy, Debug, PartialEq, Eq, PartialOrd, Ord, Hash)]
pub struct Component {
    pub kind: Kind,
    pub number: usize,
}

impl Component {
    pub fn task(number: usize) -> Component {
        Component { kind: Kind::Task, number }
    }

    pub fn data_item(number: usize) -> Component {
        Component { kind: Kind::DataItem, number }
    }

    pub fn source(number: usize) -> Component {
        Component { kind: Kind::Source, number }
    }
}

/// The classes of component that the first edition has (7.1, f).
#[derive(Clone, Copy, Debug, PartialEq, Eq, Hash)]
pub enum Class {
    Plan,
    Action,
    Enquiry,
    DataItem,
    Source,
}

impl From<TaskClass> for Class {
    fn from(class: TaskClass) -> Class {
        match class {
            TaskClass::Plan => Class::Plan,
            TaskClass::Action => Class::Action,
            TaskClass::Enquiry => Class::Enquiry,
        }
    }
}

/// Every property of section 10 in the order of its tables, a name that comes
/// again where it stood first. `CycleCount` is printed `current_cycle`.
#[derive(Clone, Copy, Debug, PartialEq, Eq, PartialOrd, Ord, Hash)]
pub enum Property {
    // 10.1
    Class,
    Name,
    Caption,
    ActualCaption,
    Description,
    ActualDescription,
    // 10.2
    State,
    AntecedentTasks,
    Goal,
    Precondition,
    WaitCondition,
    Trigger,
    TriggerActive,
    Postcondition,
    Parameters,
    ParentPlan,
    Confirmatory,
    Confirmed,
    CycleCount,
    NbrCyclesValue,
    NbrCyclesExpression,
    CycleUntil,
    CycleInterval,
    CycleIntervalUnits,
    StartAt,
    Optional,
    Terminal,
    Lwth,
    Context,
    InProgressTime,
    DiscardedTime,
    CompletedTime,
    // 10.3
    TerminateCondition,
    AbortCondition,
    // 10.4 and 10.6
    Candidates,
    Sources,
    SupportMode,
    ChoiceMode,
    Result,
    // 10.5
    Procedure,
    ActualProcedure,
    // 10.7
    Type,
    Value,
    RangeValues,
    RangeExpressions,
    DefaultValue,
    MandatoryValidation,
    WarningConditions,
    DerivationRule,
    Unit,
    Requested,
    // 10.8
    Recommendation,
    Priority,
    Arguments,
    // 10.9
    Support,
    Expression,
    // 10.11
    DataItem,
    Mandatory,
    // 10.12
    Activated,
}

/// The names of the properties, in the same order.
const NAMES: [&str; 59] = [
    "class", "name", "caption", "actual_caption", "description", "actual_description", "state",
    "antecedent_tasks", "goal", "precondition", "wait_condition", "trigger", "trigger_active",
    "postcondition", "parameters", "parent_plan", "confirmatory", "confirmed", "cycle_count",
    "nbr_cycles_value", "nbr_cycles_expression", "cycle_until", "cycle_interval", "cycle_interval_units",
    "start_at", "optional", "terminal", "lwth", "context", "in_progress_time", "discarded_time",
    "completed_time", "terminate_condition", "abort_condition", "candidates", "sources", "support_mode",
    "choice_mode", "result", "procedure", "actual_procedure", "type", "value", "range_values",
    "range_expressions", "default_value", "mandatory_validation", "warning_conditions", "derivation_rule",
    "unit", "requested", "recommendation", "priority", "arguments", "support", "expression", "data_item",
    "mandatory", "activated",
];

impl fmt::Display for Property {
    fn fmt(&self, out: &mut fmt::Formatter) -> fmt::Result {
        out.write_str(NAMES[*self as usize])
    }
}

impl fmt::Display for Class {
    fn fmt(&self, out: &mut fmt::Formatter) -> fmt::Result {
        out.write_str(match self {
            Class::Plan => "plan",
            Class::Action => "action",
            Class::Enquiry => "enquiry",
            Class::DataItem => "data_item",
            Class::Source => "source",
        })
    }
}

impl fmt::Display for TaskState {
    fn fmt(&self, out: &mut fmt::Formatter) -> fmt::Result {
        out.write_str(match self {
            TaskState::Dormant => "dormant",
            TaskState::InProgress => "in_progress",
            TaskState::Discarded => "discarded",
            TaskState::Completed => "completed",
        })
    }
}

impl fmt::Display for DeclaredType {
    fn fmt(&self, out: &mut fmt::Formatter) -> fmt::Result {
        let (name, _) =
            DeclaredType::ALL.iter().find(|entry| entry.1 == *self).expect("all types are listed");
        out.write_str(name)
    }
}
