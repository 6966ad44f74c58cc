//! Faults in a sketch, each breaking one rule (or doing nothing, where the
//! sketch has nothing to break), and the changes they are made of.

mod entries;
mod left_out;
mod limits;
mod names;
mod types;

pub use left_out::left_out;
pub use limits::{at_a_limit, hostile};
pub use names::names;
pub use types::types;

use super::random::Random;
use super::sketch::{spelled, Attribute, Owner, Sketch};
use super::words::{words, Words};

/// A change to a sketch.
type Fault = fn(&mut Sketch, &mut Random);

/// A task or a data item, counted through.
fn owner(sketch: &mut Sketch, number: usize) -> &mut Owner {
    let tasks = sketch.tasks.len();
    match number < tasks {
        true => &mut sketch.tasks[number],
        false => &mut sketch.items[number - tasks],
    }
}

/// Puts an attribute among the captions; an item's type stays before them.
fn put_first(owner: &mut Owner, attribute: Attribute) {
    let at = usize::from(owner.word == "data");
    let rest = owner.attributes.split_off(at.min(owner.attributes.len()));
    owner.attributes.push(attribute.clone());
    owner.attributes.extend(rest.into_iter().filter(|one| one.word != attribute.word));
}

/// Puts an attribute last, in the place of any other with its word.
fn replace(owner: &mut Owner, attribute: Attribute) {
    owner.attributes.retain(|one| one.word != attribute.word);
    owner.attributes.push(attribute);
}

/// Assigns a value to a new item of a declared type, in some task.
fn assign(sketch: &mut Sketch, declared: &str, value: Words, random: &mut Random) {
    add_item(sketch, "told".to_string(), declared);
    let assignment = [words("told = ("), value, words(")")].concat();
    let task = random.below(sketch.tasks.len());
    replace(&mut sketch.tasks[task], Attribute::new("postcondition", assignment));
}

/// Some component, or source, as the numbers of its task and attribute.
fn an_inner(sketch: &Sketch, word: &str, random: &mut Random) -> Option<(usize, usize)> {
    let mut found = Vec::new();
    for (task, owner) in sketch.tasks.iter().enumerate() {
        let all = owner.attributes.iter().enumerate();
        found.extend(all.filter(|(_, one)| one.word == word).map(|(at, _)| (task, at)));
    }
    (!found.is_empty()).then(|| random.pick(&found))
}

/// The number of some plan.
fn a_plan(sketch: &Sketch, random: &mut Random) -> usize {
    let plans: Vec<usize> = (0..sketch.tasks.len()).filter(|at| sketch.tasks[*at].word == "plan").collect();
    random.pick(&plans)
}

/// Adds a data item of a declared type.
fn add_item(sketch: &mut Sketch, name: String, declared: &str) {
    let attributes = vec![Attribute::new("type", words(declared))];
    sketch.items.push(Owner { word: "data", name, attributes });
}

/// Adds a task as a component of some plan.
fn add_task(sketch: &mut Sketch, owner: Owner, random: &mut Random) {
    let plan = a_plan(sketch, random);
    let component = Attribute::new("component", vec![spelled(&owner.name, random)]);
    sketch.tasks[plan].attributes.push(component);
    sketch.tasks.push(owner);
}
