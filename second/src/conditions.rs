//! 8.6: the conditions of tasks, in the order of the print, with document 01's
//! two departures (8.6.7, 8.6.8). Clauses on rows that load never sets in the
//! first edition (optional, abort_condition, cycle_until) and on start times
//! stand as printed: a test of a row fails where the row is not there. Clause
//! 4 of 8.6.4 is about decisions, which are left out.
//!
//! The conditions end: Initialise and Discard ask the plan above, Complete the
//! tasks below, and none of those asks for Complete.

use crate::component::{Class, Component, Property};
use crate::engine::Engine;
use crate::guideline::TaskState::{Completed, Discarded, Dormant, InProgress};

impl Engine {
    /// 8.6.1, InitialiseConditions(T).
    pub fn initialise_conditions(&self, task: Component) -> bool {
        let is_triggered_again = self.state_is(task, Completed)
            && self.is_true(task, Property::TriggerActive)
            && !self.is_true(task, Property::Terminal);
        let begins = |plan| self.start_conditions(plan) || self.initialise_conditions(plan);
        is_triggered_again || self.parent_plan(task).is_some_and(begins)
    }

    /// 8.6.2, StartConditions(T).
    pub fn start_conditions(&self, task: Component) -> bool {
        // 1
        let plan_runs = self.parent_plan(task).is_none_or(|plan| self.state_is(plan, InProgress));
        // 2a
        let is_scheduled = || {
            self.scheduled_start_conditions(task) && self.properties.get(task, Property::Trigger).is_none()
        };
        // 2b
        let is_triggered = || self.is_true(task, Property::TriggerActive) && self.state_is(task, Dormant);
        // 2c
        let is_due = || self.time(task, Property::StartAt).is_some_and(|at| at <= self.engine_time);
        plan_runs && (is_scheduled() || is_triggered() || is_due())
    }

    /// 8.6.3, DiscardConditions(T).
    pub fn discard_conditions(&self, task: Component) -> bool {
        self.is_discarded_by_plan(task) || self.is_discarded_by_schedule(task) || self.is_aborted(task)
    }

    /// 8.6.3, condition 1.
    fn is_discarded_by_plan(&self, task: Component) -> bool {
        let could_run = || {
            let waits = self.state_is(task, Completed) && self.time(task, Property::StartAt).is_some();
            self.state_is(task, InProgress) || self.state_is(task, Dormant) || waits
        };
        self.parent_plan(task).is_some_and(|plan| {
            self.state_is(plan, InProgress)
                && could_run()
                && (self.discard_conditions(plan) || self.termination_conditions(plan))
        })
    }

    /// 8.6.3, condition 2.
    fn is_discarded_by_schedule(&self, task: Component) -> bool {
        // a
        let plan_runs = self.parent_plan(task).is_none_or(|plan| self.state_is(plan, InProgress));
        // c, i
        let antecedents = self.properties.sequence(task, Property::AntecedentTasks);
        let all_discarded =
            || !antecedents.is_empty() && antecedents.iter().all(|other| self.state_is(*other, Discarded));
        // c, ii
        let precondition_fails = || self.holds(task, Property::Precondition) == Some(false);
        plan_runs
            && self.state_is(task, Dormant)
            && self.schedule_conditions(task)
            && (all_discarded() || precondition_fails())
    }

    /// 8.6.3, condition 3.
    fn is_aborted(&self, task: Component) -> bool {
        self.state_is(task, InProgress) && self.holds(task, Property::AbortCondition) == Some(true)
    }

    /// 8.6.4, CompleteConditions(T).
    pub fn complete_conditions(&self, task: Component) -> bool {
        let is_supplied = |source: &Component| {
            let item = self.properties.component(*source, Property::DataItem);
            let is_mandatory = self.is_true(*source, Property::Mandatory);
            item.is_none_or(|item| !is_mandatory || self.is_false(item, Property::Requested))
        };
        // 1
        self.state_is(task, InProgress)
            // 2
            && self.properties.sequence(task, Property::Sources).iter().all(is_supplied)
            // 3
            && (!self.is_true(task, Property::Confirmatory) || self.is_true(task, Property::Confirmed))
            // 5
            && (!self.class_is(task, Class::Plan) || self.components(task).all(|one| self.is_done_with(one)))
    }

    /// 8.6.4, clause 5 for one component: i to vi.
    fn is_done_with(&self, component: Component) -> bool {
        let is_optional = self.is_true(component, Property::Optional);
        (is_optional || self.state_is(component, Completed) || self.state_is(component, Discarded))
            && !self.state_is(component, InProgress)
            && !self.start_conditions(component)
            && !self.discard_conditions(component)
            && !self.initialise_conditions(component)
            && self.time(component, Property::StartAt).is_none()
    }

    /// 8.6.5, ScheduledStartConditions(T).
    pub fn scheduled_start_conditions(&self, task: Component) -> bool {
        let antecedents = self.properties.sequence(task, Property::AntecedentTasks);
        let some_completed =
            || antecedents.is_empty() || antecedents.iter().any(|other| self.state_is(*other, Completed));
        self.state_is(task, Dormant)
            && self.schedule_conditions(task)
            && some_completed()
            && self.holds(task, Property::Precondition) != Some(false)
    }

    /// 8.6.6, ScheduleConditions(T).
    pub fn schedule_conditions(&self, task: Component) -> bool {
        let is_over = |other: &Component| {
            (self.state_is(*other, Completed) || self.state_is(*other, Discarded))
                && self.time(*other, Property::StartAt).is_none()
        };
        self.properties.sequence(task, Property::AntecedentTasks).iter().all(is_over)
            && self.holds(task, Property::WaitCondition) != Some(false)
    }

    /// 8.6.7, CycleConditions(T): cycle_count and nbr_cycles_value are meant.
    pub fn cycle_conditions(&self, task: Component) -> bool {
        let count = self.integer(task, Property::CycleCount);
        let wanted = self.integer(task, Property::NbrCyclesValue);
        let asks_for_more = count.zip(wanted).is_some_and(|(count, wanted)| wanted > count);
        asks_for_more && self.holds(task, Property::CycleUntil) != Some(true)
    }

    /// 8.6.8, TerminationConditions(T): the completed task must be terminal.
    pub fn termination_conditions(&self, plan: Component) -> bool {
        let ends_it =
            |task: Component| self.state_is(task, Completed) && self.is_true(task, Property::Terminal);
        self.holds(plan, Property::TerminateCondition) == Some(true) || self.components(plan).any(ends_it)
    }
}
