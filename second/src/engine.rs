//! 8.1 to 8.4: the state of a guideline, the public operations on it, and
//! EnactChanges. Refusals are not judged here (`calls` does that); 8.3.5 is
//! about decisions, which the first edition leaves out.

use crate::component::{Component, Kind, Property};
use crate::guideline::{Guideline, TaskState};
use crate::loading;
use crate::tables::{Changes, Properties, RowValue};
use crate::value::Value;

/// 8.1: a guideline's state. The Changes table is there during a cycle only,
/// and no random number is kept.
#[derive(Clone, Debug, PartialEq, Eq)]
pub struct Engine {
    pub properties: Properties,
    pub exception: bool,
    pub engine_time: u32,
}

/// How a run ends.
#[derive(Clone, Copy, Debug, PartialEq, Eq)]
pub enum Ending {
    /// No rows were asked for.
    Quiet,
    /// Rows were asked for, but the bound was reached.
    Bounded,
    /// The Exception flag was set.
    Exception,
}

/// What a run answers: its ending, and the cycles enacted.
#[derive(Clone, Copy, Debug, PartialEq, Eq)]
pub struct Run {
    pub ending: Ending,
    pub cycles: u64,
}

impl Engine {
    /// 8.3.1, The LoadGuideline Operation; document 01: at engine time 0.
    pub fn load_guideline(guideline: &Guideline) -> Engine {
        let properties = loading::load_guideline(guideline);
        Engine { properties, exception: false, engine_time: 0 }
    }

    /// 8.3.2, The RunEngine Operation, with document 01's bound. `watch` is
    /// shown each cycle's rows before they are enacted.
    pub fn run_engine(&mut self, bound: u64, watch: &mut dyn FnMut(&Engine, &Changes)) -> Run {
        let mut cycles = 0;
        let ending = loop {
            let changes = self.review_all();
            if changes.is_empty() {
                break Ending::Quiet;
            }
            if cycles == bound {
                break Ending::Bounded;
            }
            watch(self, &changes);
            self.enact_changes(&changes);
            cycles += 1;
            if self.exception {
                break Ending::Exception;
            }
        };
        Run { ending, cycles }
    }

    /// 8.3.2, step 2: every task is reviewed against the same table.
    pub fn review_all(&self) -> Changes {
        let mut changes = Changes::new();
        for task in self.tasks() {
            self.review(task, &mut changes);
        }
        changes
    }

    /// 8.3.3, The Operation SetEngineTime(X).
    pub fn set_engine_time(&mut self, seconds: u32) {
        self.engine_time = seconds;
    }

    /// 8.3.4, The Operation ConfirmTask(T).
    pub fn confirm_task(&mut self, task: Component) {
        self.properties.set(task, Property::Confirmed, RowValue::TRUE);
    }

    /// 8.3.6, The Operation AddDataValue(D,V).
    pub fn add_data_value(&mut self, item: Component, value: Value) {
        self.properties.set(item, Property::Value, RowValue::Value(value));
        self.properties.set(item, Property::Requested, RowValue::FALSE);
    }

    /// 8.3.7, The Operation SendTrigger(Trig).
    pub fn send_trigger(&mut self, trigger: &str) {
        let is_meant = |task: &Component| {
            let plan = self.parent_plan(*task);
            self.properties.text(*task, Property::Trigger) == Some(trigger)
                && plan.is_some_and(|plan| self.state_is(plan, TaskState::InProgress))
        };
        let triggered: Vec<Component> = self.tasks().filter(is_meant).collect();
        for task in triggered {
            self.properties.set(task, Property::TriggerActive, RowValue::TRUE);
        }
    }

    /// 8.4, The Operation EnactChanges.
    pub fn enact_changes(&mut self, changes: &Changes) {
        for (component, property, value) in changes {
            let speaks_of_it =
                |row: &&(Component, Property, RowValue)| (row.0, row.1) == (*component, *property);
            let is_only_row = changes.iter().filter(speaks_of_it).count() == 1;
            let new = if is_only_row { value.clone() } else { RowValue::UNKNOWN };
            self.properties.set(*component, *property, new);
            self.exception |= !is_only_row;
        }
    }

    /// Definition 4: the task set.
    pub fn tasks(&self) -> impl Iterator<Item = Component> + '_ {
        self.properties.components(Kind::Task)
    }
}
