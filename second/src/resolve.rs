//! From the guideline as written to the loaded one: names become numbers.

use crate::expression::Expression;
use crate::guideline::{DataItem, Guideline, Source, Task, TaskClass};
use crate::scope::declared;
use crate::value::folded;
use crate::written::{Assignment, Body, Owner, Written};

/// The guideline of a text whose names and types are right.
pub fn resolved(written: &Written) -> Guideline {
    let mut tasks = Vec::new();
    let mut sources = Vec::new();
    for owner in &written.tasks {
        let first = sources.len();
        sources.extend(owner.inner("source").map(|one| source(one, written)));
        tasks.push(task(owner, (first..sources.len()).collect(), written));
    }
    join_components(&mut tasks, written);
    let data_items = written.data_items.iter().map(data_item).collect();
    Guideline { tasks, data_items, sources }
}

/// Tells each component its plan, and what its component definition says.
fn join_components(tasks: &mut [Task], written: &Written) {
    let number_of = |name: &str| number(&written.tasks, |task| task.name.text == name);
    for (plan, owner) in written.tasks.iter().enumerate() {
        for component in owner.inner("component") {
            let task = &mut tasks[number_of(&component.name.text)];
            task.parent_plan = Some(plan);
            task.terminal = yes_or_no(component, "terminal");
            let antecedents = component.schedule_constraints();
            task.antecedent_tasks = antecedents.map(|name| number_of(&name.text)).collect();
        }
    }
}

/// A task, with the numbers of its sources; its plan is not known yet.
fn task(owner: &Owner, sources: Vec<usize>, written: &Written) -> Task {
    let assigned = |one: &Assignment| {
        let target = folded(&one.target.text);
        let item = number(&written.data_items, |item| folded(&item.name.text) == target);
        (item, one.expression.expression.clone())
    };
    Task {
        class: match owner.word {
            "plan" => TaskClass::Plan,
            "action" => TaskClass::Action,
            _ => TaskClass::Enquiry,
        },
        name: owner.name.text.clone(),
        parent_plan: None,
        antecedent_tasks: Vec::new(),
        terminal: None,
        caption: expression(owner, "caption"),
        description: expression(owner, "description"),
        precondition: expression(owner, "precondition"),
        wait_condition: expression(owner, "wait_condition"),
        terminate_condition: expression(owner, "terminate"),
        trigger: name(owner, "trigger").map(str::to_string),
        postcondition: owner.attribute("postcondition").map(|_| owner.assignments().map(assigned).collect()),
        sources,
    }
}

fn data_item(owner: &Owner) -> DataItem {
    DataItem {
        name: owner.name.text.clone(),
        declared: declared(owner),
        caption: expression(owner, "caption"),
        description: expression(owner, "description"),
    }
}

fn source(owner: &Owner, written: &Written) -> Source {
    Source {
        data_item: number(&written.data_items, |item| item.name.text == owner.name.text),
        mandatory: yes_or_no(owner, "mandatory"),
        caption: expression(owner, "caption"),
        description: expression(owner, "description"),
    }
}

/// The number of the definition that is meant; names are known to be right.
fn number(owners: &[Owner], is_meant: impl Fn(&Owner) -> bool) -> usize {
    owners.iter().position(is_meant).expect("every name is defined")
}

fn expression(owner: &Owner, word: &str) -> Option<Expression> {
    match owner.attribute(word)? {
        Body::Expression(outermost) => Some(outermost.expression.clone()),
        _ => None,
    }
}

fn name<'owner>(owner: &'owner Owner, word: &str) -> Option<&'owner str> {
    match owner.attribute(word)? {
        Body::Name(name) => Some(&name.text),
        _ => None,
    }
}

fn yes_or_no(owner: &Owner, word: &str) -> Option<bool> {
    match owner.attribute(word)? {
        Body::YesOrNo(yes) => Some(*yes),
        _ => None,
    }
}
