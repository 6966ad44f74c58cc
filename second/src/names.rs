//! Refusal 4: the rules on names. Each function gives the places where its
//! rule is broken. Definitions, assigned names and names in expressions are
//! told apart with letter case ignored; components, schedule constraints and
//! sources name exactly.

use std::collections::HashSet;

use crate::value::folded;
use crate::written::{Name, Owner, Written};

/// Every place where a rule on names is broken.
pub fn places(written: &Written) -> Vec<usize> {
    let broken = [
        defined_twice(&written.tasks),
        defined_twice(&written.data_items),
        repeated_attributes(written),
        wrong_components(written),
        unreached_tasks(written),
        wrong_constraints(written),
        wrong_targets(written),
        wrong_sources(written),
    ];
    broken.concat()
}

/// No name is defined twice for the same kind of thing: the later name.
fn defined_twice(owners: &[Owner]) -> Vec<usize> {
    let mut seen = HashSet::new();
    let again = owners.iter().filter(|owner| !seen.insert(folded(&owner.name.text)));
    again.map(|owner| owner.name.place).collect()
}

/// No attribute twice but component, schedule_constraint and source: the later
/// word.
fn repeated_attributes(written: &Written) -> Vec<usize> {
    let mut places = Vec::new();
    for owner in written.owners() {
        let mut seen = HashSet::new();
        for attribute in &owner.attributes {
            let may_repeat = matches!(attribute.word, "component" | "schedule_constraint" | "source");
            if !may_repeat && !seen.insert(attribute.word) {
                places.push(attribute.place);
            }
        }
    }
    places
}

/// All components, plan by plan in the order of the text.
fn components(written: &Written) -> impl Iterator<Item = &Owner> {
    written.tasks.iter().flat_map(|task| task.inner("component"))
}

/// A component names a task, not the root, and one that no component before
/// it names.
fn wrong_components(written: &Written) -> Vec<usize> {
    let root = &written.tasks[0].name.text;
    let tasks: HashSet<&String> = written.tasks.iter().map(|task| &task.name.text).collect();
    let mut used = HashSet::new();
    let is_wrong = |name: &Name| {
        let is_new = used.insert(name.text.clone());
        !is_new || name.text == *root || !tasks.contains(&name.text)
    };
    places_of(components(written).map(|component| &component.name), is_wrong)
}

/// Every task but the root is reached from the root through components; so it
/// is a component too. A component's name reaches every definition of that
/// name: a task defined twice is told at the later definition alone.
fn unreached_tasks(written: &Written) -> Vec<usize> {
    let mut reached = vec![false; written.tasks.len()];
    let mut waiting = vec![0];
    while let Some(number) = waiting.pop() {
        if std::mem::replace(&mut reached[number], true) {
            continue;
        }
        for component in written.tasks[number].inner("component") {
            let is_named = |task: &usize| written.tasks[*task].name.text == component.name.text;
            waiting.extend((0..written.tasks.len()).filter(is_named));
        }
    }
    let unreached = written.tasks.iter().zip(reached).filter(|(_, reached)| !reached);
    unreached.map(|(task, _)| task.name.place).collect()
}

/// A schedule constraint names another component of its plan.
fn wrong_constraints(written: &Written) -> Vec<usize> {
    let mut places = Vec::new();
    for plan in &written.tasks {
        let siblings: HashSet<&String> = plan.inner("component").map(|one| &one.name.text).collect();
        for component in plan.inner("component") {
            let is_wrong = |name: &Name| name.text == component.name.text || !siblings.contains(&name.text);
            places.extend(places_of(component.schedule_constraints(), is_wrong));
        }
    }
    places
}

/// A postcondition assigns to data items only.
fn wrong_targets(written: &Written) -> Vec<usize> {
    let items: HashSet<String> = written.data_items.iter().map(|item| folded(&item.name.text)).collect();
    let assignments = written.tasks.iter().flat_map(|task| task.assignments());
    places_of(assignments.map(|one| &one.target), |name| !items.contains(&folded(&name.text)))
}

/// A source names a data item.
fn wrong_sources(written: &Written) -> Vec<usize> {
    let items: HashSet<&String> = written.data_items.iter().map(|item| &item.name.text).collect();
    let sources = written.tasks.iter().flat_map(|task| task.inner("source"));
    places_of(sources.map(|source| &source.name), |name| !items.contains(&name.text))
}

/// The places of the names that are wrong.
fn places_of<'all>(
    names: impl Iterator<Item = &'all Name>,
    mut is_wrong: impl FnMut(&Name) -> bool,
) -> Vec<usize> {
    names.filter(|name| is_wrong(name)).map(|name| name.place).collect()
}
