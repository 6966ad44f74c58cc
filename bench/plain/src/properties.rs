//! The rows of the Properties table that calls and cycles change. `None` or
//! false is a row that is not there.

use crate::definitions::Definitions;
use crate::formula::{Formula, Situation};
use crate::terms::TaskState;
use crate::value::Value;

#[derive(Clone, Debug)]
pub struct Properties {
    pub tasks: Vec<TaskRows>,
    pub data_items: Vec<ItemRows>,
    pub exception: bool,
    pub engine_time: u32,
}

#[derive(Clone, Debug)]
pub struct TaskRows {
    pub state: TaskState,
    pub trigger_active: Option<bool>,
    pub confirmed: Option<bool>,
    pub cycle_count: Option<u32>,
    pub in_progress_time: Option<u32>,
    pub discarded_time: Option<u32>,
    pub completed_time: Option<u32>,
    // Rows that in the first edition are unknown whenever they are there.
    pub start_at: bool,
    pub nbr_cycles_value: bool,
    pub actual_procedure: bool,
}

#[derive(Clone, Debug, Default)]
pub struct ItemRows {
    pub value: Option<Value>,
    pub requested: Option<bool>,
}

impl Properties {
    /// The rows right after load.
    pub fn of(definitions: &Definitions) -> Properties {
        let dormant = TaskRows {
            state: TaskState::Dormant,
            trigger_active: None,
            confirmed: None,
            cycle_count: None,
            in_progress_time: None,
            discarded_time: None,
            completed_time: None,
            start_at: false,
            nbr_cycles_value: false,
            actual_procedure: false,
        };
        Properties {
            tasks: vec![dormant; definitions.tasks.len()],
            data_items: vec![ItemRows::default(); definitions.data_items.len()],
            exception: false,
            engine_time: 0,
        }
    }
}

/// The whole Properties table: what load set and what has changed since.
#[derive(Clone, Copy)]
pub struct Table<'guideline> {
    pub definitions: &'guideline Definitions,
    pub properties: &'guideline Properties,
}

impl Table<'_> {
    pub fn state(&self, task: usize) -> TaskState {
        self.properties.tasks[task].state
    }

    /// Whether a condition comes to true.
    pub fn holds(&self, condition: &Formula) -> bool {
        condition.value(self).is_true()
    }

    /// Whether a condition, if it is there, comes to true.
    pub fn holds_if_there(&self, condition: &Option<Formula>) -> bool {
        condition.as_ref().is_none_or(|condition| self.holds(condition))
    }
}

impl Situation for Table<'_> {
    /// 9.2: an item without a value row is unknown.
    fn item_value(&self, item: usize) -> Value {
        self.properties.data_items[item].value.clone().unwrap_or_default()
    }

    fn task_state(&self, task: usize) -> TaskState {
        self.state(task)
    }

    /// The root has no name row.
    fn task_named(&self, name: &[u8]) -> Option<usize> {
        let components = self.definitions.tasks.iter().enumerate().skip(1);
        components
            .into_iter()
            .find(|(_, task)| task.name.eq_ignore_ascii_case(name))
            .map(|(number, _)| number)
    }
}
