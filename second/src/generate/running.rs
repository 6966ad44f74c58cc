//! Sketches of guidelines that load and run: small ones mostly, and some with
//! plans nested, tasks, items, sources and assignments up to the limits.

use super::random::Random;
use super::sketch::{
    constraint, declared_type, new_name, spelled, yes_or_no, Attribute, Owner, Sketch, DECLARED,
};
use super::words::{joined, words, Words, ANYWHERE};
use crate::limits::{ASSIGNMENTS, DATA_ITEMS, SOURCES, TASKS};
use crate::load::load;
use crate::types::Type;

/// The triggers that tasks have; one of them is empty, one has two spellings.
pub const TRIGGERS: [&str; 5] = ["rain", "Rain", "", "two words", "it\\'s"];

/// The text of a guideline that loads.
pub fn text(random: &mut Random) -> Vec<u8> {
    loop {
        let sketch = running(random);
        let text = joined(&sketch.words(random), &ANYWHERE, random);
        if load(&text).is_ok() {
            return text;
        }
    }
}

fn running(random: &mut Random) -> Sketch {
    match random.below(50) {
        0 => nested(random),
        1 => full(random),
        2..=6 => of_size(12, 6, random),
        _ => of_size(5, 4, random),
    }
}

/// A guideline with up to so many tasks below the root, and items.
fn of_size(tasks: usize, items: usize, random: &mut Random) -> Sketch {
    let mut sketch = frame(1 + random.below(tasks), random.below(items + 1), random);
    for number in 1..sketch.tasks.len() {
        let plans: Vec<usize> = (0..number).filter(|plan| sketch.tasks[*plan].word == "plan").collect();
        let plan = random.pick(&plans);
        join(&mut sketch, plan, number, random);
    }
    for task in 0..sketch.tasks.len() {
        add_constraints(&mut sketch.tasks[task], random);
        add_attributes(&mut sketch, task, random);
    }
    sketch
}

/// Tasks and items without attributes; the root is the first task.
fn frame(tasks: usize, items: usize, random: &mut Random) -> Sketch {
    let mut sketch = Sketch { tasks: Vec::new(), items: Vec::new(), before: Vec::new(), others: Vec::new() };
    for number in 0..items {
        let often = ["integer", "real", "boolean"];
        let declared = if random.chance(60) { random.pick(&often) } else { random.pick(&DECLARED).0 };
        let attributes = vec![Attribute::new("type", words(declared))];
        sketch.items.push(Owner { word: "data", name: new_name(number, random), attributes });
    }
    sketch.tasks.push(Owner { word: "plan", name: new_name(0, random), attributes: Vec::new() });
    for number in 1..=tasks {
        let word = random.pick(&["plan", "action", "action", "enquiry", "enquiry"]);
        sketch.tasks.push(Owner { word, name: new_name(number, random), attributes: Vec::new() });
    }
    if random.chance(5) && sketch.tasks.iter().all(|task| !task.name.is_empty()) {
        sketch.tasks[0].name.clear();
    }
    sketch
}

/// Makes a task a component of a plan.
fn join(sketch: &mut Sketch, plan: usize, task: usize, random: &mut Random) {
    let name = spelled(&sketch.tasks[task].name, random);
    let mut component = Attribute::new("component", vec![name]);
    if random.chance(20) {
        component.inner.push(Attribute::new("terminal", yes_or_no(random)));
    }
    sketch.tasks[plan].attributes.push(component);
}

/// Who waits for whom in a plan: nobody, a chain, any before it, or a circle.
fn add_constraints(plan: &mut Owner, random: &mut Random) {
    let names: Vec<String> = plan.attributes.iter().map(|one| one.value[0].clone()).collect();
    let style = random.below(12);
    for (at, component) in plan.attributes.iter_mut().enumerate() {
        let before = (at + names.len() - 1) % names.len();
        let waits_for: Vec<usize> = match style {
            0..=5 => Vec::new(),
            6..=8 => (0..at).filter(|other| *other == before).collect(),
            9 | 10 => (0..at).filter(|_| random.chance(60)).collect(),
            _ => (0..names.len()).filter(|other| *other == before && *other != at).collect(),
        };
        component.inner.extend(waits_for.iter().map(|other| constraint(names[*other].clone())));
        random.shuffle(&mut component.inner);
    }
}

/// How often, out of a hundred, the root and the other tasks have a condition.
const CONDITIONS: [(&str, usize, usize); 3] =
    [("precondition", 12, 25), ("wait_condition", 4, 12), ("terminate", 12, 15)];

fn add_attributes(sketch: &mut Sketch, task: usize, random: &mut Random) {
    let (word, is_root) = (sketch.tasks[task].word, task == 0);
    let mut attributes = std::mem::take(&mut sketch.tasks[task].attributes);
    for (name, of_root, of_others) in CONDITIONS {
        let often = if is_root { of_root } else { of_others };
        if (name != "terminate" || word == "plan") && random.chance(often) {
            attributes.push(Attribute::new(name, condition(sketch, random)));
        }
    }
    if random.chance(if is_root { 2 } else { 15 }) {
        let trigger = spelled(random.pick(&TRIGGERS), random);
        attributes.push(Attribute::new("trigger", vec![trigger]));
    }
    if !sketch.items.is_empty() && random.chance(50) {
        attributes.push(Attribute::new("postcondition", assertion(sketch, random)));
    }
    if word == "enquiry" && !sketch.items.is_empty() {
        for _ in 0..random.below(4) {
            attributes.push(sketch.source(random));
        }
    }
    random.shuffle(&mut attributes);
    sketch.tasks[task].attributes = sketch.generic(random);
    sketch.tasks[task].attributes.extend(attributes);
}

/// A condition that is often true, and may become true or false in time.
fn condition(sketch: &Sketch, random: &mut Random) -> Words {
    let states = ["is_dormant", "is_in_progress", "is_discarded", "is_completed"];
    let task = spelled(&random.choose(&sketch.tasks).name, random);
    let kind = random.below(14);
    match (kind, sketch.items.is_empty()) {
        (0..=3, _) => words("1 = 1"),
        (4, _) => words("1 = 2"),
        (5, _) => words(&format!("{} ( \"no such task\" )", random.pick(&states))),
        (6 | 7, _) => [words(random.pick(&states)), words("("), vec![task], words(")")].concat(),
        (8..=11, false) => {
            let item = random.choose(&sketch.items);
            let name = vec![spelled(&item.name, random)];
            match kind {
                8 => [words("isknown ("), name, words(")")].concat(),
                9 => [words("not ( isknown ("), name, words(") )")].concat(),
                _ => {
                    let operator = words(random.pick(&["=", "!=", "<", ">="]));
                    [name, operator, literal(declared_type(item), random)].concat()
                }
            }
        }
        _ => sketch.expression(Type::TruthValue, random),
    }
}

/// A constant of a type.
fn literal(wanted: Type, random: &mut Random) -> Words {
    words(match wanted {
        Type::Integer => random.pick(&["0", "1", "2", "3", "-1"]),
        Type::Real => random.pick(&["2", "2.0", "0", "0.5", "-1.25"]),
        Type::SetofText => random.pick(&["[ yes ]", "[ \"\" , no ]", "[ ]"]),
        Type::SetofInteger => random.pick(&["[ 1 ]", "[ 2 , 1 ]", "[ ]"]),
        Type::SetofReal => random.pick(&["[ 1 ]", "[ 1.0 ]", "[ ]"]),
        _ => random.pick(&["yes", "no", "''", "\"\"", "Yes"]),
    })
}

/// What a postcondition assigns: a swap, one item twice with two values or
/// with the same, 2 beside 2.0, the item that many tasks assign to, or any.
fn assertion(sketch: &mut Sketch, random: &mut Random) -> Words {
    let item = random.choose(&sketch.items);
    let wanted = declared_type(item);
    let is_alike = |other: &&Owner| other.name != item.name && declared_type(other) == wanted;
    let alike = sketch.items.iter().find(is_alike);
    match (random.below(12), alike) {
        (0 | 1, Some(alike)) => {
            let (one, other) = (spelled(&item.name, random), spelled(&alike.name, random));
            both(assign(alike, vec![one], random), assign(item, vec![other], random))
        }
        (2 | 3, _) => {
            let (one, other) = (literal(wanted, random), literal(wanted, random));
            both(assign(item, one, random), assign(item, other, random))
        }
        (4, _) => {
            let value = literal(wanted, random);
            both(assign(item, value.clone(), random), assign(item, value, random))
        }
        (5, _) if wanted == Type::Real => {
            both(assign(item, words("2"), random), assign(item, words("2.0"), random))
        }
        (6..=8, _) => {
            let often = &sketch.items[0];
            let value = literal(declared_type(often), random);
            assign(often, value, random)
        }
        _ => sketch.assertion(random),
    }
}

fn assign(item: &Owner, value: Words, random: &mut Random) -> Words {
    [vec![spelled(&item.name, random)], words("="), value].concat()
}

fn both(one: Words, other: Words) -> Words {
    [one, words("and"), other].concat()
}

/// Plans inside plans, down to the limit on tasks.
fn nested(random: &mut Random) -> Sketch {
    let depth = if random.chance(30) { TASKS - 1 } else { 2 + random.below(TASKS - 2) };
    let mut sketch = frame(depth, 2, random);
    for task in 1..=depth {
        sketch.tasks[task].word = if task == depth { random.pick(&["action", "plan"]) } else { "plan" };
        join(&mut sketch, task - 1, task, random);
    }
    for task in [0, depth / 2, depth] {
        add_attributes(&mut sketch, task, random);
    }
    sketch
}

/// As many tasks, items, sources and assignments as may be.
fn full(random: &mut Random) -> Sketch {
    let mut sketch = frame(TASKS - 1, DATA_ITEMS, random);
    for task in 1..TASKS {
        sketch.tasks[task].word = if task % 2 == 1 { "enquiry" } else { "action" };
        join(&mut sketch, 0, task, random);
    }
    add_constraints(&mut sketch.tasks[0], random);
    for number in 0..SOURCES {
        let name = spelled(&sketch.items[number % DATA_ITEMS].name, random);
        let enquiry = (2 * number + 1) % TASKS;
        sketch.tasks[enquiry].attributes.push(Attribute::new("source", vec![name]));
    }
    for task in 0..TASKS {
        let each = ASSIGNMENTS / TASKS;
        let mut assigned = Words::new();
        for number in each * task..each * (task + 1) {
            let item = &sketch.items[number % DATA_ITEMS];
            let value = literal(declared_type(item), random);
            let next = assign(item, value, random);
            assigned = if assigned.is_empty() { next } else { both(assigned, next) };
        }
        sketch.tasks[task].attributes.push(Attribute::new("postcondition", assigned));
    }
    sketch
}
