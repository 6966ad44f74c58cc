//! 8.6: the conditions of tasks. Each is worked out once a cycle, plans before
//! their components: Initialise and Discard ask the plan above, Complete the
//! tasks below. Clauses on rows that are never there in the first edition
//! (optional, abort_condition, cycle_until, start times) are left out.

use crate::definitions::Task;
use crate::properties::Table;
use crate::terms::Class;
use crate::terms::TaskState::{Completed, Discarded, Dormant, InProgress};

/// What holds of a task in this cycle.
#[derive(Clone, Copy, Debug, Default)]
pub struct Outlook {
    pub initialise: bool,
    pub start: bool,
    pub discard: bool,
    /// Of a plan in progress: its components that are not done with are
    /// discarded (8.6.3, 1).
    ends: bool,
}

impl Table<'_> {
    /// 8.6.1 to 8.6.3, given those of the parent plan.
    pub fn outlook(&self, number: usize, plan: Option<Outlook>) -> Outlook {
        let task = &self.definitions.tasks[number];
        let rows = &self.properties.tasks[number];
        let is_triggered = rows.trigger_active == Some(true);
        let plan_runs = task.parent_plan.is_none_or(|plan| self.state(plan) == InProgress);
        let could_start = plan_runs && rows.state == Dormant;
        // 8.6.6 and the precondition, which Start and Discard both ask for.
        let scheduled = could_start && self.schedule_conditions(task);
        let precondition = scheduled && self.holds_if_there(&task.precondition);
        let is_again = rows.state == Completed && is_triggered && task.terminal != Some(true);
        let initialise = is_again || plan.is_some_and(|plan| plan.start || plan.initialise);
        let start = (precondition && task.trigger.is_none() && self.some_antecedent_completed(task))
            || (could_start && is_triggered);
        let by_plan = plan.is_some_and(|plan| plan.ends) && matches!(rows.state, InProgress | Dormant);
        let discard = by_plan || (scheduled && (!precondition || self.antecedents_discarded(task)));
        let ends = task.class == Class::Plan
            && rows.state == InProgress
            && (discard || self.termination_conditions(task));
        Outlook { initialise, start, discard, ends }
    }

    /// 8.6.4, CompleteConditions(T).
    pub fn complete_conditions(&self, number: usize, outlooks: &[Outlook]) -> bool {
        let task = &self.definitions.tasks[number];
        let rows = &self.properties.tasks[number];
        rows.state == InProgress
            && self.sources_are_supplied(task)
            && (task.class != Class::Action || rows.confirmed == Some(true))
            && task.components.iter().all(|component| self.is_done_with(*component, outlooks))
    }

    /// 8.6.4, 2: each mandatory source has been supplied.
    fn sources_are_supplied(&self, task: &Task) -> bool {
        self.definitions.sources[task.sources.clone()].iter().all(|source| {
            source.mandatory != Some(true)
                || self.properties.data_items[source.data_item].requested == Some(false)
        })
    }

    /// 8.6.4, 5 for one component.
    fn is_done_with(&self, component: usize, outlooks: &[Outlook]) -> bool {
        let outlook = outlooks[component];
        matches!(self.state(component), Completed | Discarded)
            && !outlook.start
            && !outlook.discard
            && !outlook.initialise
    }

    /// 8.6.5, 3.
    fn some_antecedent_completed(&self, task: &Task) -> bool {
        let antecedents = &task.antecedent_tasks;
        antecedents.is_empty() || antecedents.iter().any(|other| self.state(*other) == Completed)
    }

    /// 8.6.3, 2c i.
    fn antecedents_discarded(&self, task: &Task) -> bool {
        let antecedents = &task.antecedent_tasks;
        !antecedents.is_empty() && antecedents.iter().all(|other| self.state(*other) == Discarded)
    }

    /// 8.6.6, ScheduleConditions(T).
    fn schedule_conditions(&self, task: &Task) -> bool {
        let is_over = |other: &usize| matches!(self.state(*other), Completed | Discarded);
        task.antecedent_tasks.iter().all(is_over) && self.holds_if_there(&task.wait_condition)
    }

    /// 8.6.8, TerminationConditions(T): the completed task must be terminal.
    fn termination_conditions(&self, plan: &Task) -> bool {
        let ends_it = |component: &usize| {
            self.state(*component) == Completed && self.definitions.tasks[*component].terminal == Some(true)
        };
        plan.terminate_condition.as_ref().is_some_and(|condition| self.holds(condition))
            || plan.components.iter().any(ends_it)
    }
}
