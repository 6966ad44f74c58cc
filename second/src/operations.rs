//! 8.5: the operations that take a task, in the order of the print. They read
//! the Properties table and add rows to the Changes table. What is about
//! decisions and parameters (8.5.7, 8.5.8) is left out of the first edition;
//! captions and descriptions get no rows (8.5.9, 8.5.10).

use crate::component::{Class, Component, Property};
use crate::engine::Engine;
use crate::evaluate::evaluate;
use crate::expression::Expression;
use crate::guideline::TaskState;
use crate::tables::{Changes, RowValue};

impl Engine {
    /// 8.5.1, The Operation Review(T).
    pub fn review(&self, task: Component, changes: &mut Changes) {
        if self.initialise_conditions(task) {
            self.initialise(task, changes);
        } else if self.start_conditions(task) {
            self.start(task, changes);
        } else if self.discard_conditions(task) {
            self.discard(task, changes);
        } else if self.complete_conditions(task) {
            self.complete(task, changes);
        }
    }

    /// 8.5.2, The Operation Initialise(T).
    pub fn initialise(&self, task: Component, changes: &mut Changes) {
        changes.insert((task, Property::State, RowValue::State(TaskState::Dormant)));
        changes.insert((task, Property::CycleCount, RowValue::integer(0)));
        changes.insert((task, Property::StartAt, RowValue::UNKNOWN));
        changes.insert((task, Property::TriggerActive, RowValue::FALSE));
        changes.insert((task, Property::NbrCyclesValue, RowValue::UNKNOWN));
        if self.class_is(task, Class::Action) {
            changes.insert((task, Property::ActualProcedure, RowValue::UNKNOWN));
        }
    }

    /// 8.5.3, The Operation Start(T).
    pub fn start(&self, task: Component, changes: &mut Changes) {
        changes.insert((task, Property::State, RowValue::State(TaskState::InProgress)));
        changes.insert((task, Property::StartAt, RowValue::UNKNOWN));
        changes.insert((task, Property::InProgressTime, RowValue::Time(self.engine_time)));
        if let Some(count) = self.integer(task, Property::CycleCount) {
            changes.insert((task, Property::CycleCount, RowValue::integer(count + 1)));
        }
        changes.insert((task, Property::Confirmed, RowValue::FALSE));
        if self.class_is(task, Class::Enquiry) {
            for source in self.properties.sequence(task, Property::Sources) {
                self.initialise_source(*source, changes);
            }
        }
        if self.class_is(task, Class::Action) {
            changes.insert((task, Property::ActualProcedure, RowValue::UNKNOWN));
        }
    }

    /// 8.5.4, The Operation Discard(T).
    pub fn discard(&self, task: Component, changes: &mut Changes) {
        changes.insert((task, Property::State, RowValue::State(TaskState::Discarded)));
        changes.insert((task, Property::DiscardedTime, RowValue::Time(self.engine_time)));
    }

    /// 8.5.5, The Operation Complete(T). No item has a default value (step 6).
    pub fn complete(&self, task: Component, changes: &mut Changes) {
        changes.insert((task, Property::State, RowValue::State(TaskState::Completed)));
        changes.insert((task, Property::CompletedTime, RowValue::Time(self.engine_time)));
        if let Some(RowValue::Assertion(assignments)) = self.properties.get(task, Property::Postcondition) {
            self.enact_assertion(assignments, changes);
        }
        match self.cycle_conditions(task) {
            true => self.set_start_at(task, changes),
            false => {
                changes.insert((task, Property::StartAt, RowValue::UNKNOWN));
            }
        }
    }

    /// 8.5.6, The Operation SetStartAt(T), of a task without cycle_interval.
    pub fn set_start_at(&self, task: Component, changes: &mut Changes) {
        changes.insert((task, Property::StartAt, RowValue::Time(self.engine_time)));
    }

    /// 8.5.11, The Operation EnactAssertion(A,T): each assignment in turn.
    pub fn enact_assertion(&self, assignments: &[(Component, Expression)], changes: &mut Changes) {
        for (item, expression) in assignments {
            let value = evaluate(expression, self);
            changes.insert((*item, Property::Value, RowValue::Value(value)));
        }
    }

    /// 8.5.12, The Operation InitialiseSource(S,T).
    pub fn initialise_source(&self, source: Component, changes: &mut Changes) {
        if let Some(item) = self.properties.component(source, Property::DataItem) {
            if !self.is_true(item, Property::Requested) {
                changes.insert((item, Property::Requested, RowValue::TRUE));
            }
        }
    }
}
