//! Refusal 4: the rules on names. Definitions and assigned names are told apart
//! with letter case ignored; components, schedule constraints and sources name
//! exactly.

use crate::directory::Directory;
use crate::refusal::Smallest;
use crate::syntax::{Task, Written};

/// The smallest place where a rule on names is broken.
pub fn breach(written: &Written, tasks: &Directory, items: &Directory) -> Option<usize> {
    let mut smallest = Smallest::default();
    tasks.defined_twice().chain(items.defined_twice()).for_each(|place| smallest.note(place));
    wrong_components(written, tasks, &mut smallest);
    unreached_tasks(written, tasks, &mut smallest);
    for task in &written.tasks {
        wrong_constraints(task, &mut smallest);
        wrong_items(task, items, &mut smallest);
    }
    smallest.0
}

/// A component names a task, not the root, and one that no component before
/// it names.
fn wrong_components(written: &Written, tasks: &Directory, smallest: &mut Smallest) {
    let root = written.tasks[0].name.text;
    let mut used = vec![false; written.tasks.len()];
    for component in written.tasks.iter().flat_map(|task| &task.components) {
        let is_new = match tasks.find(component.name.text) {
            Some(task) => !std::mem::replace(&mut used[task], true),
            None => false,
        };
        if !is_new || component.name.text == root {
            smallest.note(component.name.place);
        }
    }
}

/// Every task but the root is reached from the root through components; a
/// component's name reaches every definition of that name.
fn unreached_tasks(written: &Written, tasks: &Directory, smallest: &mut Smallest) {
    let mut reached = vec![false; written.tasks.len()];
    let mut waiting = vec![0];
    while let Some(number) = waiting.pop() {
        if !std::mem::replace(&mut reached[number], true) {
            let components = written.tasks[number].components.iter();
            waiting.extend(components.flat_map(|component| tasks.find_all(component.name.text)));
        }
    }
    let unreached = written.tasks.iter().zip(reached).filter(|(_, reached)| !reached);
    unreached.for_each(|(task, _)| smallest.note(task.name.place));
}

/// A schedule constraint names another component of its plan.
fn wrong_constraints(plan: &Task, smallest: &mut Smallest) {
    for component in &plan.components {
        for constraint in &component.constraints {
            let is_sibling = plan.components.iter().any(|other| other.name.text == constraint.text);
            if !is_sibling || constraint.text == component.name.text {
                smallest.note(constraint.place);
            }
        }
    }
}

/// A postcondition assigns to data items only, and a source names one.
fn wrong_items(task: &Task, items: &Directory, smallest: &mut Smallest) {
    let targets = task.postcondition.iter().flatten().map(|assignment| assignment.target);
    let wrong_targets = targets.filter(|target| items.find_folded(target.text).is_none());
    let sources = task.sources.iter().map(|source| source.name);
    let wrong_sources = sources.filter(|source| items.find(source.text).is_none());
    wrong_targets.chain(wrong_sources).for_each(|name| smallest.note(name.place));
}
