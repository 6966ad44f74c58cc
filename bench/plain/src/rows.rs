//! Reading the Properties table: which rows are there, and what they hold.

use crate::definitions::{Definitions, Task};
use crate::properties::{Table, TaskRows};
use crate::terms::{Class, DeclaredType, TaskState};
use crate::value::Value;

/// Kinds of component, by their rank in section 10.
pub const TASK: usize = 0;
pub const DATA_ITEM: usize = 1;
pub const SOURCE: usize = 5;
/// How many kinds there are.
pub const KINDS: usize = 7;

/// Properties that the first edition has rows for, by their numbers in the
/// order of section 10's tables.
pub mod property {
    pub const CLASS: usize = 0;
    pub const NAME: usize = 1;
    pub const STATE: usize = 6;
    pub const ANTECEDENT_TASKS: usize = 7;
    pub const PRECONDITION: usize = 9;
    pub const WAIT_CONDITION: usize = 10;
    pub const TRIGGER: usize = 11;
    pub const TRIGGER_ACTIVE: usize = 12;
    pub const POSTCONDITION: usize = 13;
    pub const PARENT_PLAN: usize = 15;
    pub const CONFIRMATORY: usize = 16;
    pub const CONFIRMED: usize = 17;
    pub const CYCLE_COUNT: usize = 18;
    pub const NBR_CYCLES_VALUE: usize = 19;
    pub const START_AT: usize = 24;
    pub const TERMINAL: usize = 26;
    pub const IN_PROGRESS_TIME: usize = 29;
    pub const DISCARDED_TIME: usize = 30;
    pub const COMPLETED_TIME: usize = 31;
    pub const TERMINATE_CONDITION: usize = 32;
    pub const SOURCES: usize = 35;
    pub const ACTUAL_PROCEDURE: usize = 40;
    pub const TYPE: usize = 41;
    pub const VALUE: usize = 42;
    pub const REQUESTED: usize = 50;
    pub const DATA_ITEM: usize = 56;
    pub const MANDATORY: usize = 57;
    /// How many properties there are.
    pub const COUNT: usize = 59;
}

/// What a row holds.
#[derive(Clone, Copy, Debug, PartialEq, Eq)]
pub enum Row<'guideline> {
    Unknown,
    Truth(bool),
    Integer(u32),
    /// A name or a trigger.
    Text(&'guideline [u8]),
    /// The value of a data item.
    Value(&'guideline Value),
    /// An engine time.
    Time(u32),
    State(TaskState),
    TaskClass(Class),
    DataItemClass,
    SourceClass,
    Type(DeclaredType),
    /// A component, by kind and number.
    Component(usize, usize),
    /// An expression, an assertion or a list of components.
    There,
}

/// A row, if it is there.
pub fn row(table: Table<'_>, kind: usize, number: usize, property: usize) -> Option<Row<'_>> {
    if number >= count(table.definitions, kind) {
        return None;
    }
    match kind {
        TASK => {
            let definition = &table.definitions.tasks[number];
            let changing = changing_task_row(&table.properties.tasks[number], property);
            changing
                .or_else(|| task_row(definition, property))
                .or_else(|| component_row(definition, property))
        }
        DATA_ITEM => item_row(table, number, property),
        SOURCE => source_row(table.definitions, number, property),
        _ => None,
    }
}

/// How many components of a kind there are.
pub fn count(definitions: &Definitions, kind: usize) -> usize {
    match kind {
        TASK => definitions.tasks.len(),
        DATA_ITEM => definitions.data_items.len(),
        SOURCE => definitions.sources.len(),
        _ => 0,
    }
}

/// The rows of a task that cycles change.
fn changing_task_row(rows: &TaskRows, property: usize) -> Option<Row<'static>> {
    match property {
        property::STATE => Some(Row::State(rows.state)),
        property::TRIGGER_ACTIVE => rows.trigger_active.map(Row::Truth),
        property::CONFIRMED => rows.confirmed.map(Row::Truth),
        property::CYCLE_COUNT => rows.cycle_count.map(Row::Integer),
        property::NBR_CYCLES_VALUE => rows.nbr_cycles_value.then_some(Row::Unknown),
        property::START_AT => rows.start_at.then_some(Row::Unknown),
        property::ACTUAL_PROCEDURE => rows.actual_procedure.then_some(Row::Unknown),
        property::IN_PROGRESS_TIME => rows.in_progress_time.map(Row::Time),
        property::DISCARDED_TIME => rows.discarded_time.map(Row::Time),
        property::COMPLETED_TIME => rows.completed_time.map(Row::Time),
        _ => None,
    }
}

/// The rows of a task that load sets.
fn task_row(task: &Task, property: usize) -> Option<Row<'_>> {
    let there = |is_there: bool| is_there.then_some(Row::There);
    match property {
        property::CLASS => Some(Row::TaskClass(task.class)),
        property::PRECONDITION => there(task.precondition.is_some()),
        property::WAIT_CONDITION => there(task.wait_condition.is_some()),
        property::TERMINATE_CONDITION => there(task.terminate_condition.is_some()),
        property::POSTCONDITION => there(task.postcondition.is_some()),
        property::SOURCES => there(!task.sources.is_empty()),
        property::TRIGGER => task.trigger.as_deref().map(Row::Text),
        _ => None,
    }
}

/// The rows of a task that it has as a component.
fn component_row(task: &Task, property: usize) -> Option<Row<'_>> {
    let plan = task.parent_plan?;
    match property {
        property::NAME => Some(Row::Text(&task.name)),
        property::PARENT_PLAN => Some(Row::Component(TASK, plan)),
        property::CONFIRMATORY => Some(Row::Truth(task.class == Class::Action)),
        property::TERMINAL => task.terminal.map(Row::Truth),
        property::ANTECEDENT_TASKS => (!task.antecedent_tasks.is_empty()).then_some(Row::There),
        _ => None,
    }
}

fn item_row(table: Table<'_>, number: usize, property: usize) -> Option<Row<'_>> {
    let (definition, rows) = (&table.definitions.data_items[number], &table.properties.data_items[number]);
    match property {
        property::CLASS => Some(Row::DataItemClass),
        property::NAME => Some(Row::Text(&definition.name)),
        property::TYPE => Some(Row::Type(definition.declared)),
        property::VALUE => rows.value.as_ref().map(Row::Value),
        property::REQUESTED => rows.requested.map(Row::Truth),
        _ => None,
    }
}

fn source_row(definitions: &Definitions, number: usize, property: usize) -> Option<Row<'_>> {
    let source = &definitions.sources[number];
    match property {
        property::CLASS => Some(Row::SourceClass),
        property::NAME => Some(Row::Text(&definitions.data_items[source.data_item].name)),
        property::DATA_ITEM => Some(Row::Component(DATA_ITEM, source.data_item)),
        property::MANDATORY => source.mandatory.map(Row::Truth),
        _ => None,
    }
}
