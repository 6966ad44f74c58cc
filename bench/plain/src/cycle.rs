//! 8.3.2, 8.4 and 8.5: reviewing all tasks and enacting what they ask for. All
//! rows of an operation on a task are asked for by that task alone, once, so
//! the operation stands for them; only values can collide.

use crate::conditions::Outlook;
use crate::definitions::Definitions;
use crate::properties::{Properties, Table};
use crate::terms::{Class, TaskState};
use crate::value::Value;

/// The operations of 8.5 on a task.
#[derive(Clone, Copy, Debug)]
enum Operation {
    Initialise,
    Start,
    Discard,
    Complete,
}

/// What is asked for an item's value in this cycle.
#[derive(Clone, Debug, Default)]
enum Asked {
    #[default]
    Nothing,
    Value(Value),
    Collision,
}

/// The Changes table; its room is used again from cycle to cycle.
#[derive(Clone, Debug)]
pub struct Changes {
    outlooks: Vec<Outlook>,
    operations: Vec<(usize, Operation)>,
    /// What is asked for each item, and the items for which something is.
    values: Vec<Asked>,
    assigned: Vec<usize>,
}

impl Changes {
    pub fn of(definitions: &Definitions) -> Changes {
        let (tasks, items) = (definitions.tasks.len(), definitions.data_items.len());
        Changes {
            outlooks: vec![Outlook::default(); tasks],
            operations: Vec::with_capacity(tasks),
            values: vec![Asked::Nothing; items],
            assigned: Vec::with_capacity(items),
        }
    }

    /// 8.3.2, step 2: reviews every task against the same table, and says
    /// whether any rows are asked for.
    pub fn review_all(&mut self, table: Table) -> bool {
        for task in &table.definitions.from_the_root {
            let plan = table.definitions.tasks[*task].parent_plan;
            self.outlooks[*task] = table.outlook(*task, plan.map(|plan| self.outlooks[plan]));
        }
        self.operations.clear();
        for task in 0..self.outlooks.len() {
            self.operations.extend(self.review(task, table).map(|operation| (task, operation)));
        }
        !self.operations.is_empty()
    }

    /// 8.5.1, The Operation Review(T).
    fn review(&self, task: usize, table: Table) -> Option<Operation> {
        let outlook = self.outlooks[task];
        if outlook.initialise {
            Some(Operation::Initialise)
        } else if outlook.start {
            Some(Operation::Start)
        } else if outlook.discard {
            Some(Operation::Discard)
        } else {
            table.complete_conditions(task, &self.outlooks).then_some(Operation::Complete)
        }
    }

    /// 8.4, The Operation EnactChanges. Assigned expressions are worked out
    /// before any row changes.
    pub fn enact(&mut self, definitions: &Definitions, properties: &mut Properties) {
        self.work_out_assignments(Table { definitions, properties });
        for (task, operation) in self.operations.drain(..) {
            match operation {
                Operation::Initialise => initialise(task, definitions, properties),
                Operation::Start => start(task, definitions, properties),
                Operation::Discard => discard(task, properties),
                Operation::Complete => complete(task, properties),
            }
        }
        for item in self.assigned.drain(..) {
            let value = match std::mem::take(&mut self.values[item]) {
                Asked::Value(value) => value,
                Asked::Nothing | Asked::Collision => {
                    properties.exception = true;
                    Value::Unknown
                }
            };
            properties.data_items[item].value = Some(value);
        }
    }

    /// 8.5.11, EnactAssertion(A,T), for every task that completes.
    fn work_out_assignments(&mut self, table: Table) {
        for (task, operation) in &self.operations {
            if !matches!(operation, Operation::Complete) {
                continue;
            }
            for (item, formula) in table.definitions.tasks[*task].postcondition.iter().flatten() {
                let value = formula.value(&table);
                match &self.values[*item] {
                    Asked::Nothing => {
                        self.assigned.push(*item);
                        self.values[*item] = Asked::Value(value);
                    }
                    Asked::Value(other) if *other != value => self.values[*item] = Asked::Collision,
                    _ => {}
                }
            }
        }
    }
}

/// 8.5.2, The Operation Initialise(T).
fn initialise(task: usize, definitions: &Definitions, properties: &mut Properties) {
    let rows = &mut properties.tasks[task];
    rows.state = TaskState::Dormant;
    rows.cycle_count = Some(0);
    rows.start_at = true;
    rows.trigger_active = Some(false);
    rows.nbr_cycles_value = true;
    rows.actual_procedure |= definitions.tasks[task].class == Class::Action;
}

/// 8.5.3, The Operation Start(T), and 8.5.12, InitialiseSource(S,T).
fn start(task: usize, definitions: &Definitions, properties: &mut Properties) {
    let rows = &mut properties.tasks[task];
    let definition = &definitions.tasks[task];
    rows.state = TaskState::InProgress;
    rows.start_at = true;
    rows.in_progress_time = Some(properties.engine_time);
    rows.cycle_count = rows.cycle_count.map(|count| count.saturating_add(1));
    rows.confirmed = Some(false);
    rows.actual_procedure |= definition.class == Class::Action;
    for source in &definitions.sources[definition.sources.clone()] {
        properties.data_items[source.data_item].requested = Some(true);
    }
}

/// 8.5.4, The Operation Discard(T).
fn discard(task: usize, properties: &mut Properties) {
    let rows = &mut properties.tasks[task];
    rows.state = TaskState::Discarded;
    rows.discarded_time = Some(properties.engine_time);
}

/// 8.5.5, The Operation Complete(T), but for its assignments.
fn complete(task: usize, properties: &mut Properties) {
    let rows = &mut properties.tasks[task];
    rows.state = TaskState::Completed;
    rows.completed_time = Some(properties.engine_time);
    rows.start_at = true;
}
