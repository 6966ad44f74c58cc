//! The public calls on a loaded guideline and their refusals: 7, 8, 9, 6 in
//! that order. A refused call changes nothing.

use crate::cycle::Changes;
use crate::definitions::Definitions;
use crate::given::{is_text, Given};
use crate::limits;
use crate::loading;
use crate::properties::{Properties, Table};
use crate::refusal::{Reason, Refusal};
use crate::rows::{self, Row};
use crate::terms::TaskState;

/// A guideline and how it stands.
#[derive(Clone, Debug)]
pub struct Guideline {
    definitions: Definitions,
    properties: Properties,
    changes: Changes,
}

/// How a run ends.
#[derive(Clone, Copy, Debug, PartialEq, Eq)]
pub enum Ending {
    /// No rows were asked for.
    Quiet,
    /// Rows were asked for, but the bound was reached.
    Bounded,
    /// The Exception flag was set.
    Exception,
}

/// What a run answers: its ending, and the cycles enacted.
#[derive(Clone, Copy, Debug, PartialEq, Eq)]
pub struct Run {
    pub ending: Ending,
    pub cycles: u64,
}

/// Loads a guideline, at engine time 0.
pub fn load(text: &[u8]) -> Result<Guideline, Refusal> {
    let definitions = loading::definitions(text)?;
    let properties = Properties::of(&definitions);
    let changes = Changes::of(&definitions);
    Ok(Guideline { definitions, properties, changes })
}

impl Guideline {
    /// 8.3.2, with document 01's bound. The rows of a lent Changes table are
    /// only counted: this engine has one of its own.
    pub fn run(&mut self, bound: u64, lent: u64) -> Result<Run, Refusal> {
        self.check_runs()?;
        within_limits(bound <= limits::CYCLES && lent >= limits::CHANGES_ROWS)?;
        let mut cycles = 0;
        let ending = loop {
            let table = Table { definitions: &self.definitions, properties: &self.properties };
            if !self.changes.review_all(table) {
                break Ending::Quiet;
            }
            if cycles == bound {
                break Ending::Bounded;
            }
            self.changes.enact(&self.definitions, &mut self.properties);
            cycles += 1;
            if self.properties.exception {
                break Ending::Exception;
            }
        };
        Ok(Run { ending, cycles })
    }

    /// 8.3.3, SetEngineTime(X).
    pub fn set_time(&mut self, seconds: u64) -> Result<(), Refusal> {
        self.check_runs()?;
        self.properties.engine_time = u32::try_from(seconds).map_err(|_| Reason::Limit.of_call())?;
        Ok(())
    }

    /// 8.3.4, ConfirmTask(T).
    pub fn confirm(&mut self, task: usize) -> Result<(), Refusal> {
        self.check_runs()?;
        let rows = self.properties.tasks.get_mut(task).ok_or(Reason::NoComponent.of_call())?;
        rows.confirmed = Some(true);
        Ok(())
    }

    /// 8.3.6, AddDataValue(D,V).
    pub fn add(&mut self, item: usize, given: &Given) -> Result<(), Refusal> {
        self.check_runs()?;
        let definition = self.definitions.data_items.get(item).ok_or(Reason::NoComponent.of_call())?;
        let value = given.judged(definition.declared.inferred()).map_err(Reason::of_call)?;
        let rows = &mut self.properties.data_items[item];
        rows.value = Some(value);
        rows.requested = Some(false);
        Ok(())
    }

    /// 8.3.7, SendTrigger(Trig).
    pub fn trigger(&mut self, trigger: &[u8]) -> Result<(), Refusal> {
        self.check_runs()?;
        within_limits(is_text(trigger))?;
        for (number, task) in self.definitions.tasks.iter().enumerate() {
            let is_meant = task.trigger.as_deref() == Some(trigger);
            let plan_runs = |plan: usize| self.properties.tasks[plan].state == TaskState::InProgress;
            if is_meant && task.parent_plan.is_some_and(plan_runs) {
                self.properties.tasks[number].trigger_active = Some(true);
            }
        }
        Ok(())
    }

    /// A row, by the numbers of its kind, component and property.
    pub fn row(&self, kind: usize, number: usize, property: usize) -> Option<Row<'_>> {
        let table = Table { definitions: &self.definitions, properties: &self.properties };
        rows::row(table, kind, number, property)
    }

    /// How many components of a kind there are.
    pub fn count(&self, kind: usize) -> usize {
        rows::count(&self.definitions, kind)
    }

    pub fn engine_time(&self) -> u32 {
        self.properties.engine_time
    }

    /// The Exception flag.
    pub fn exception(&self) -> bool {
        self.properties.exception
    }

    /// Refusal 7 of every call but load and reading.
    fn check_runs(&self) -> Result<(), Refusal> {
        match self.properties.exception {
            true => Err(Reason::NothingRuns.of_call()),
            false => Ok(()),
        }
    }
}

/// Refusal 6.
fn within_limits(fits: bool) -> Result<(), Refusal> {
    fits.then_some(()).ok_or(Reason::Limit.of_call())
}
