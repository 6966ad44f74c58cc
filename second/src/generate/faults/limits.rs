//! Guidelines at and just past the limits, and hostile expressions in them.

use super::{add_item, add_task, put_first, replace, Fault};
use crate::generate::limits;
use crate::generate::random::Random;
use crate::generate::sketch::{Attribute, Owner, Sketch};
use crate::generate::words::{words, Words};
use crate::limits::{ASSIGNMENTS, DATA_ITEMS, NAME_BYTES, SOURCES, TASKS};

/// Goes to a limit or past it.
pub fn at_a_limit(sketch: &mut Sketch, random: &mut Random) {
    let counts: [Fault; 5] = [many_tasks, many_items, many_sources, many_assignments, long_name];
    match random.chance(50) {
        true => random.pick(&counts)(sketch, random),
        false => {
            let expression = limits::expression(random);
            assign_integer(sketch, expression, random);
        }
    }
}

/// Actions up to about the limit on tasks.
fn many_tasks(sketch: &mut Sketch, random: &mut Random) {
    for number in sketch.tasks.len()..limits::around(TASKS, random) {
        let name = format!("more{number}");
        add_task(sketch, Owner { word: "action", name, attributes: Vec::new() }, random);
    }
}

/// Data items up to about their limit.
fn many_items(sketch: &mut Sketch, random: &mut Random) {
    for number in sketch.items.len()..limits::around(DATA_ITEMS, random) {
        add_item(sketch, format!("more{number}"), "text");
    }
}

/// Sources up to about their limit.
fn many_sources(sketch: &mut Sketch, random: &mut Random) {
    add_item(sketch, "asked".to_string(), "text");
    let written = sketch.tasks.iter().flat_map(|task| &task.attributes);
    let there = written.filter(|attribute| attribute.word == "source").count();
    let more = limits::around(SOURCES, random).saturating_sub(there);
    let attributes = vec![Attribute::new("source", words("asked")); more];
    add_task(sketch, Owner { word: "enquiry", name: "asks".to_string(), attributes }, random);
}

/// Assignments up to about their limit.
fn many_assignments(sketch: &mut Sketch, random: &mut Random) {
    add_item(sketch, "told".to_string(), "text");
    for task in &mut sketch.tasks {
        task.attributes.retain(|attribute| attribute.word != "postcondition");
    }
    let assignments = vec!["told = x"; limits::around(ASSIGNMENTS, random)].join(" and ");
    replace(&mut sketch.tasks[0], Attribute::new("postcondition", words(&assignments)));
}

/// A trigger or caption of about as many bytes as fit.
fn long_name(sketch: &mut Sketch, random: &mut Random) {
    let name = limits::long_name(limits::around(NAME_BYTES, random), random);
    let root = &mut sketch.tasks[0];
    match random.chance(50) {
        true => replace(root, Attribute::new("trigger", vec![name.replace('"', "'")])),
        false => put_first(root, Attribute::new("caption", vec![name])),
    }
}

/// Puts in an expression that asks much of a reader.
pub fn hostile(sketch: &mut Sketch, random: &mut Random) {
    let expression = limits::hostile(random);
    assign_integer(sketch, expression, random);
}

/// Uses an integer expression in an assignment or a condition.
fn assign_integer(sketch: &mut Sketch, expression: Words, random: &mut Random) {
    let task = random.below(sketch.tasks.len());
    let attribute = match random.below(3) {
        0 => Attribute::new("wait_condition", [words("1 <"), expression].concat()),
        1 => Attribute::new("precondition", [words("isknown ("), expression, words(")")].concat()),
        _ => {
            add_item(sketch, "figure".to_string(), "real");
            Attribute::new("postcondition", [words("figure ="), expression].concat())
        }
    };
    replace(&mut sketch.tasks[task], attribute);
}
