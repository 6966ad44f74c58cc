//! Load, stage by stage: 1, 2, 6 (tokens and open brackets), 3, 10, 6 (all
//! else), 4, 5; each over the whole text before the next.

use crate::definitions::{DataItem, Definitions, Source, Task};
use crate::directory::Directory;
use crate::formula::Formula;
use crate::lexer;
use crate::limits;
use crate::names;
use crate::parser::{self, Notes};
use crate::refusal::{Reason, Refusal, Smallest};
use crate::syntax::{self, Outermost, Written};
use crate::types::Type;
use crate::typing::Typing;

/// The definitions that a text stands for, or why it is refused.
pub fn definitions(text: &[u8]) -> Result<Definitions, Refusal> {
    let lexed = lexer::tokens(text)?;
    let (written, notes) = parser::parse(text, &lexed)?;
    Reason::LeftOut.at_any(notes.left_out)?;
    check_limits(&written, &notes, lexed.too_large, text.len())?;
    let tasks = Directory::of(written.tasks.iter().map(|task| task.name));
    let items = Directory::of(written.data_items.iter().map(|item| item.name));
    let mut breach = Smallest(names::breach(&written, &tasks, &items));
    notes.repeated.into_iter().for_each(|place| breach.note(place));
    Reason::Names.at_any(breach.0)?;
    let data_items = &written.data_items;
    let mut typing = Typing { data_items, items: &items, tasks: &tasks, untyped: Smallest::default() };
    let definitions = resolved(&written, &mut typing);
    Reason::Types.at_any(typing.untyped.0)?;
    Ok(definitions)
}

/// The second 6.
fn check_limits(
    written: &Written,
    notes: &Notes,
    token: Option<usize>,
    length: usize,
) -> Result<(), Refusal> {
    let too_many = written.tasks.len() > limits::TASKS
        || written.data_items.len() > limits::DATA_ITEMS
        || notes.parts > limits::EXPRESSION_PARTS
        || notes.assignments > limits::ASSIGNMENTS
        || notes.sources > limits::SOURCES;
    let places = [token, notes.too_large, too_many.then_some(length)];
    Reason::Limit.at_any(places.into_iter().flatten().min())
}

/// Names become numbers, and expressions formulas.
fn resolved(written: &Written, typing: &mut Typing) -> Definitions {
    let mut sources = Vec::new();
    let mut tasks = Vec::with_capacity(written.tasks.len());
    for task in &written.tasks {
        tasks.push(resolved_task(task, &mut sources, typing));
    }
    let mut data_items = Vec::with_capacity(written.data_items.len());
    for item in &written.data_items {
        check_texts(&item.texts, typing);
        data_items.push(DataItem { name: item.name.text.into(), declared: item.declared });
    }
    join_components(&mut tasks, written, typing.tasks);
    let from_the_root = from_the_root(&tasks);
    Definitions { tasks, data_items, sources, from_the_root }
}

/// A task whose place in the tree is not known yet.
fn resolved_task(task: &syntax::Task, sources: &mut Vec<Source>, typing: &mut Typing) -> Task {
    check_texts(&task.texts, typing);
    let first = sources.len();
    for source in &task.sources {
        check_texts(&source.texts, typing);
        let data_item = typing.items.find(source.name.text);
        sources.extend(data_item.map(|data_item| Source { data_item, mandatory: source.mandatory }));
    }
    let mut condition = |written: &Option<Outermost>| {
        written.as_ref().and_then(|outermost| typing.formula(outermost, Type::TruthValue, false))
    };
    Task {
        class: task.class,
        name: task.name.text.into(),
        parent_plan: None,
        components: Vec::new(),
        antecedent_tasks: Vec::new(),
        terminal: None,
        precondition: condition(&task.precondition),
        wait_condition: condition(&task.wait_condition),
        terminate_condition: condition(&task.terminate),
        trigger: task.trigger.map(|trigger| trigger.text.into()),
        postcondition: task.postcondition.as_ref().map(|assertion| assignments(assertion, typing)),
        sources: first..sources.len(),
    }
}

/// An assigned expression has the item's type or promotes to it.
fn assignments(assertion: &[syntax::Assignment], typing: &mut Typing) -> Vec<(usize, Formula)> {
    let resolve = |assignment: &syntax::Assignment| {
        let item = typing.items.find_folded(assignment.target.text)?;
        let wanted = typing.data_items[item].declared.inferred();
        Some((item, typing.formula(&assignment.expression, wanted, true)?))
    };
    assertion.iter().filter_map(resolve).collect()
}

/// Captions and descriptions are typed, and get no rows.
fn check_texts(texts: &[Outermost], typing: &mut Typing) {
    for text in texts {
        typing.formula(text, Type::Text, false);
    }
}

/// Tells each component its plan, and what its plan says of it.
fn join_components(tasks: &mut [Task], written: &Written, directory: &Directory) {
    for (plan, definition) in written.tasks.iter().enumerate() {
        for component in &definition.components {
            let Some(number) = directory.find(component.name.text) else {
                continue;
            };
            let antecedents = component.constraints.iter();
            let task = &mut tasks[number];
            task.parent_plan = Some(plan);
            task.terminal = component.terminal;
            task.antecedent_tasks = antecedents.filter_map(|name| directory.find(name.text)).collect();
            tasks[plan].components.push(number);
        }
    }
}

/// The tasks in an order in which each plan stands before its components.
fn from_the_root(tasks: &[Task]) -> Vec<usize> {
    let mut order = Vec::with_capacity(tasks.len());
    order.push(0);
    for next in 0..tasks.len() {
        // The rules on names make every task reached, and reached once.
        let plan = order[next];
        order.extend(&tasks[plan].components);
    }
    order
}
