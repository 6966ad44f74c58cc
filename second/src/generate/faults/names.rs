//! Broken rules on names, one at a time.

use super::{a_plan, add_item, add_task, an_inner, owner, replace, Fault};
use crate::generate::random::Random;
use crate::generate::sketch::{constraint, declared_type, other_case, spelled, Attribute, Owner, Sketch};
use crate::generate::words::{words, Words};
use crate::limits::TASKS;
use crate::types::Type;

/// Breaks a rule on names.
pub fn names(sketch: &mut Sketch, random: &mut Random) {
    let faults: [Fault; 18] = [
        task_twice, task_in_other_case, item_twice, attribute_twice, attribute_twice, inner_attribute_twice,
        inner_attribute_twice, component_renamed, component_added, component_removed, circle_of_plans,
        chain_of_plans, constraint_added, constraint_added, target_renamed, source_added, plan_twice,
        task_added,
    ];
    random.pick(&faults)(sketch, random);
}

/// A name of something: a task, an item, or nothing; in some case.
fn some_name(sketch: &Sketch, random: &mut Random) -> String {
    let name = match random.below(3) {
        0 => random.choose(&sketch.tasks).name.clone(),
        1 if !sketch.items.is_empty() => random.choose(&sketch.items).name.clone(),
        1 => sketch.tasks[0].name.clone(),
        _ => "nothing".to_string(),
    };
    if random.chance(30) {
        other_case(&name, random)
    } else {
        name
    }
}

/// A task defined again, perhaps in another case.
fn task_twice(sketch: &mut Sketch, random: &mut Random) {
    let mut again = random.choose(&sketch.tasks).clone();
    again.attributes.retain(|attribute| attribute.word != "component");
    if random.chance(40) {
        again.name = other_case(&again.name, random);
    }
    sketch.tasks.push(again);
}

/// One more component whose name is another task's in another case.
fn task_in_other_case(sketch: &mut Sketch, random: &mut Random) {
    let name = random.choose(&sketch.tasks).name.clone();
    let name = other_case(&name, random);
    add_task(sketch, Owner { word: "action", name, attributes: Vec::new() }, random);
}

/// A plan defined twice, with a component in one definition only.
fn plan_twice(sketch: &mut Sketch, random: &mut Random) {
    let plan = a_plan(sketch, random);
    let name = sketch.tasks[plan].name.clone();
    let attributes = vec![Attribute::new("component", words("below"))];
    sketch.tasks.push(Owner { word: "plan", name, attributes });
    sketch.tasks.push(Owner { word: "action", name: "below".to_string(), attributes: Vec::new() });
}

/// A task that is no component, with a new name or one there is already.
fn task_added(sketch: &mut Sketch, random: &mut Random) {
    let word = random.pick(&["plan", "action", "enquiry"]);
    sketch.tasks.push(Owner { word, name: some_name(sketch, random), attributes: Vec::new() });
}

/// A data item defined again, perhaps in another case.
fn item_twice(sketch: &mut Sketch, random: &mut Random) {
    if sketch.items.is_empty() {
        return;
    }
    let mut again = random.choose(&sketch.items).clone();
    if random.chance(70) {
        again.name = other_case(&again.name, random);
    }
    sketch.items.push(again);
}

/// What a class of task, or a data item, may say once.
fn said_once(class: &str) -> &'static [&'static str] {
    match class {
        "data" => &["caption", "description"],
        "plan" => &[
            "caption", "description", "precondition", "wait_condition", "postcondition", "trigger",
            "terminate",
        ],
        _ => &["caption", "description", "precondition", "wait_condition", "postcondition", "trigger"],
    }
}

/// An attribute of a task or item said twice, with others between.
fn attribute_twice(sketch: &mut Sketch, random: &mut Random) {
    if sketch.items.is_empty() {
        add_item(sketch, "told".to_string(), "text");
    }
    let number = random.below(sketch.tasks.len() + sketch.items.len());
    let word = random.pick(said_once(owner(sketch, number).word));
    for _ in 0..2 {
        let value = some_value(sketch, word, random);
        insert(owner(sketch, number), Attribute::new(word, value), random);
    }
}

/// A value that an attribute may have.
fn some_value(sketch: &mut Sketch, word: &str, random: &mut Random) -> Words {
    match word {
        "caption" | "description" => sketch.expression(Type::Text, random),
        "postcondition" => sketch.assertion(random),
        "trigger" => words("again"),
        "terminal" | "mandatory" => words(random.pick(&["yes", "no"])),
        _ => sketch.expression(Type::TruthValue, random),
    }
}

/// Puts an attribute where it may stand: captions and descriptions come first.
fn insert(owner: &mut Owner, attribute: Attribute, random: &mut Random) {
    let is_generic = |word: &str| matches!(word, "type" | "caption" | "description");
    let first = usize::from(owner.word == "data");
    let generics = owner.attributes.iter().take_while(|one| is_generic(one.word)).count();
    let (from, to) =
        if is_generic(attribute.word) { (first, generics) } else { (generics, owner.attributes.len()) };
    owner.attributes.insert(from + random.below(to - from + 1), attribute);
}

/// An attribute of a component or a source said twice.
fn inner_attribute_twice(sketch: &mut Sketch, random: &mut Random) {
    let (word, said) = random.pick(&[
        ("component", "terminal"),
        ("source", "mandatory"),
        ("source", "caption"),
        ("source", "description"),
    ]);
    if an_inner(sketch, word, random).is_none() {
        add_item(sketch, "asked".to_string(), "text");
        add_enquiry(sketch, "asked", random);
    }
    if let Some((task, at)) = an_inner(sketch, word, random) {
        for _ in 0..2 {
            let value = some_value(sketch, said, random);
            let inner = &mut sketch.tasks[task].attributes[at].inner;
            inner.insert(random.below(inner.len() + 1), Attribute::new(said, value));
        }
    }
}

/// A component with the name of something else, or in another case.
fn component_renamed(sketch: &mut Sketch, random: &mut Random) {
    if let Some((task, at)) = an_inner(sketch, "component", random) {
        let old = sketch.tasks[task].attributes[at].value[0].clone();
        let name = some_name(sketch, random);
        let new = if random.chance(50) { other_case(&old, random) } else { spelled(&name, random) };
        sketch.tasks[task].attributes[at].value = vec![new];
    }
}

/// One component more: of the root, of nothing, or of a task used already.
fn component_added(sketch: &mut Sketch, random: &mut Random) {
    let plan = a_plan(sketch, random);
    let name = some_name(sketch, random);
    let component = Attribute::new("component", vec![spelled(&name, random)]);
    sketch.tasks[plan].attributes.push(component);
}

/// A task that is a component no longer.
fn component_removed(sketch: &mut Sketch, random: &mut Random) {
    if let Some((task, at)) = an_inner(sketch, "component", random) {
        sketch.tasks[task].attributes.remove(at);
    }
}

/// Plans that are components of each other in a circle.
fn circle_of_plans(sketch: &mut Sketch, random: &mut Random) {
    let length = random.pick(&[1, 2, 3, 8]);
    let plans: Vec<Owner> = (0..length).map(|number| plan_above(number, (number + 1) % length)).collect();
    sketch.tasks.extend(plans);
}

/// Plans in a chain below some plan, as deep as may be, mostly with a link cut;
/// what hangs below the cut may be a circle.
fn chain_of_plans(sketch: &mut Sketch, random: &mut Random) {
    let length = 2 + random.below(TASKS.saturating_sub(sketch.tasks.len() + 1).max(1));
    let cut = random.below(length);
    let last = if random.chance(30) { cut } else { length };
    let mut plans: Vec<Owner> = (0..length).map(|number| plan_above(number, number + 1)).collect();
    plans[length - 1] = plan_above(length - 1, last);
    if last == length {
        plans[length - 1].attributes.clear();
    }
    match cut.checked_sub(1) {
        Some(above) if random.chance(75) => plans[above].attributes.clear(),
        _ => {}
    }
    let first = plans.remove(0);
    add_task(sketch, first, random);
    sketch.tasks.extend(plans);
}

/// The plan `linkN` with the component `linkM`.
fn plan_above(number: usize, below: usize) -> Owner {
    let attributes = vec![Attribute::new("component", vec![format!("link{below}")])];
    Owner { word: "plan", name: format!("link{number}"), attributes }
}

/// A constraint on itself, on nothing, or on a task that may be no sibling.
fn constraint_added(sketch: &mut Sketch, random: &mut Random) {
    if let Some((task, at)) = an_inner(sketch, "component", random) {
        let own = sketch.tasks[task].attributes[at].value[0].clone();
        let name = some_name(sketch, random);
        let named = if random.chance(30) { own } else { spelled(&name, random) };
        sketch.tasks[task].attributes[at].inner.push(constraint(named));
    }
}

/// An assignment to something that may be no data item.
fn target_renamed(sketch: &mut Sketch, random: &mut Random) {
    let task = random.below(sketch.tasks.len());
    let name = some_name(sketch, random);
    let value = match sketch.items.first() {
        Some(item) => sketch.expression(declared_type(item), random),
        None => words("1"),
    };
    let assignment = [vec![spelled(&name, random)], words("= ("), value, words(")")].concat();
    replace(&mut sketch.tasks[task], Attribute::new("postcondition", assignment));
}

/// A source of something that may be no data item.
fn source_added(sketch: &mut Sketch, random: &mut Random) {
    let name = some_name(sketch, random);
    add_enquiry(sketch, &name, random);
}

/// Adds an enquiry with one source.
fn add_enquiry(sketch: &mut Sketch, source: &str, random: &mut Random) {
    let attributes = vec![Attribute::new("source", vec![spelled(source, random)])];
    add_task(sketch, Owner { word: "enquiry", name: "asks".to_string(), attributes }, random);
}
