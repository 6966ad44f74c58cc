//! The sketch of a guideline: owners and attributes that can still be changed
//! before the text is written.

use super::expressions::Expressions;
use super::random::Random;
use super::words::{words, Words};
use crate::grammar::grammar;
use crate::types::Type;

/// A task, a data item, a component or a source.
#[derive(Clone)]
pub struct Owner {
    pub word: &'static str,
    /// The name's inner characters.
    pub name: String,
    pub attributes: Vec<Attribute>,
}

/// An attribute's word, what follows its `::`, and, for a component or a
/// source, the attributes of its own.
#[derive(Clone)]
pub struct Attribute {
    pub word: &'static str,
    pub value: Words,
    pub inner: Vec<Attribute>,
}

/// A guideline in the making; the first task is the root.
pub struct Sketch {
    pub tasks: Vec<Owner>,
    pub items: Vec<Owner>,
    /// Words before the root, and definitions of other kinds.
    pub before: Words,
    pub others: Vec<Words>,
}

const NAMES: [&str; 16] = [
    "dose", "Drain", "wait", "check_flow", "Ask", "review", "treat", "spray", "egg_count", "Rain",
    "temperature", "plot", "_P", "x", "two words", "it\\'s",
];

/// The types that an item may have, by their declared names.
pub const DECLARED: [(&str, Type); 10] = [
    ("text", Type::Text),
    ("integer", Type::Integer),
    ("boolean", Type::Text),
    ("datetime", Type::Real),
    ("date", Type::Real),
    ("time", Type::Real),
    ("real", Type::Real),
    ("setof_text", Type::SetofText),
    ("setof_integer", Type::SetofInteger),
    ("setof_real", Type::SetofReal),
];

impl Attribute {
    pub fn new(word: &'static str, value: Words) -> Attribute {
        Attribute { word, value, inner: Vec::new() }
    }
}

/// A name as a token: bare where that is possible and mostly so, else quoted.
pub fn spelled(name: &str, random: &mut Random) -> String {
    let is_bare = !name.is_empty()
        && !name.as_bytes()[0].is_ascii_digit()
        && name.bytes().all(|byte| byte.is_ascii_alphanumeric() || byte == b'_')
        && !grammar().reserved().contains(&name);
    match is_bare && !random.chance(10) {
        true => name.to_string(),
        false => format!("'{name}'"),
    }
}

/// A name in capitals, in small letters, or with a capital first.
pub fn other_case(name: &str, random: &mut Random) -> String {
    let (first, rest) = name.split_at(name.len().min(1));
    match random.below(3) {
        0 => name.to_ascii_uppercase(),
        1 => name.to_ascii_lowercase(),
        _ => first.to_ascii_uppercase() + &rest.to_ascii_lowercase(),
    }
}

impl Sketch {
    /// A guideline in which all is right.
    pub fn new(random: &mut Random) -> Sketch {
        let mut sketch =
            Sketch { tasks: Vec::new(), items: Vec::new(), before: Vec::new(), others: Vec::new() };
        for number in 0..random.below(6) {
            let declared = words(random.pick(&DECLARED).0);
            let name = new_name(number, random);
            let attributes = vec![Attribute::new("type", declared)];
            sketch.items.push(Owner { word: "data", name, attributes });
        }
        sketch.tasks.push(Owner { word: "plan", name: new_name(0, random), attributes: Vec::new() });
        for number in 1..=random.below(7) {
            let word = random.pick(&["plan", "action", "action", "enquiry"]);
            sketch.tasks.push(Owner { word, name: new_name(number, random), attributes: Vec::new() });
        }
        sketch.join_tasks(random);
        for task in 0..sketch.tasks.len() {
            sketch.add_attributes(task, random);
        }
        for item in 0..sketch.items.len() {
            let generic = sketch.generic(random);
            sketch.items[item].attributes.extend(generic);
        }
        sketch
    }

    /// Makes each task but the root a component of a plan before it.
    fn join_tasks(&mut self, random: &mut Random) {
        for number in 1..self.tasks.len() {
            let plans: Vec<usize> = (0..number).filter(|plan| self.tasks[*plan].word == "plan").collect();
            let plan = random.pick(&plans);
            let name = self.tasks[number].name.clone();
            let mut component = Attribute::new("component", vec![spelled(&name, random)]);
            let siblings: Vec<Words> =
                self.tasks[plan].attributes.iter().map(|one| one.value.clone()).collect();
            for sibling in siblings.iter().filter(|_| random.chance(30)) {
                component.inner.push(constraint(sibling[0].clone()));
            }
            if random.chance(25) {
                component.inner.push(Attribute::new("terminal", yes_or_no(random)));
            }
            random.shuffle(&mut component.inner);
            self.tasks[plan].attributes.push(component);
        }
    }

    fn add_attributes(&mut self, task: usize, random: &mut Random) {
        let word = self.tasks[task].word;
        let mut attributes = std::mem::take(&mut self.tasks[task].attributes);
        for condition in ["precondition", "wait_condition", "terminate"] {
            if (condition != "terminate" || word == "plan") && random.chance(30) {
                let value = self.expression(Type::TruthValue, random);
                attributes.push(Attribute::new(condition, value));
            }
        }
        if random.chance(15) {
            let trigger = if random.chance(10) { "" } else { random.pick(&NAMES) };
            attributes.push(Attribute::new("trigger", vec![spelled(trigger, random)]));
        }
        if !self.items.is_empty() && random.chance(40) {
            attributes.push(Attribute::new("postcondition", self.assertion(random)));
        }
        if word == "enquiry" && !self.items.is_empty() {
            for _ in 0..random.below(4) {
                attributes.push(self.source(random));
            }
        }
        random.shuffle(&mut attributes);
        self.tasks[task].attributes = self.generic(random);
        self.tasks[task].attributes.extend(attributes);
    }

    /// A caption, a description, both or neither.
    pub fn generic(&mut self, random: &mut Random) -> Vec<Attribute> {
        let mut generic = Vec::new();
        for word in ["caption", "description"] {
            if random.chance(20) {
                generic.push(Attribute::new(word, self.expression(Type::Text, random)));
            }
        }
        random.shuffle(&mut generic);
        generic
    }

    pub fn source(&mut self, random: &mut Random) -> Attribute {
        let name = random.choose(&self.items).name.clone();
        let mut source = Attribute::new("source", vec![spelled(&name, random)]);
        source.inner = self.generic(random);
        if random.chance(50) {
            source.inner.push(Attribute::new("mandatory", yes_or_no(random)));
        }
        random.shuffle(&mut source.inner);
        source
    }

    /// Some assignments, joined and now and then bracketed.
    pub fn assertion(&mut self, random: &mut Random) -> Words {
        let mut made = Words::new();
        for index in 0..1 + random.below(3) {
            let item = random.below(self.items.len());
            let target = self.items[item].name.clone();
            let target = if random.chance(20) { other_case(&target, random) } else { target };
            let wanted = declared_type(&self.items[item]);
            let assignment =
                [vec![spelled(&target, random)], words("="), self.assigned(wanted, random)].concat();
            made = match index {
                0 => assignment,
                _ if random.chance(20) => [words("("), made, words(") and"), assignment].concat(),
                _ => [made, words("and"), assignment].concat(),
            };
        }
        made
    }

    /// An expression for an assignment: an empty list for a set now and then,
    /// and bracketed if it holds an `and`.
    fn assigned(&mut self, wanted: Type, random: &mut Random) -> Words {
        let is_set = matches!(wanted, Type::SetofText | Type::SetofInteger | Type::SetofReal);
        if is_set && random.chance(10) {
            return words("[ ]");
        }
        let value = self.expression(wanted, random);
        match value.iter().any(|word| word == "and") {
            true => [words("("), value, words(")")].concat(),
            false => value,
        }
    }

    /// An expression of a type over the items and tasks there are.
    pub fn expression(&self, wanted: Type, random: &mut Random) -> Words {
        let mut items = Vec::new();
        for item in &self.items {
            let name = if random.chance(20) { other_case(&item.name, random) } else { item.name.clone() };
            items.push((spelled(&name, random), declared_type(item)));
        }
        let tasks: Vec<String> = self.tasks.iter().map(|task| spelled(&task.name, random)).collect();
        let depth = random.below(4);
        Expressions { random, items: &items, tasks: &tasks }.well_typed(wanted, depth)
    }

    /// The words of the whole text: the root first, the rest in any order.
    pub fn words(&self, random: &mut Random) -> Words {
        let owners = self.tasks[1..].iter().chain(&self.items);
        let mut rest: Vec<Words> = owners.map(|owner| definition(owner, random)).collect();
        rest.extend(self.others.clone());
        random.shuffle(&mut rest);
        [self.before.clone(), definition(&self.tasks[0], random), rest.concat()].concat()
    }
}

/// A name that no other definition of its kind has, folded or not; now and
/// then the second one is empty.
pub fn new_name(number: usize, random: &mut Random) -> String {
    match number == 1 && random.chance(8) {
        true => String::new(),
        false => format!("{}{}", random.pick(&NAMES), number),
    }
}

/// The inferred type of an item.
pub fn declared_type(item: &Owner) -> Type {
    let declared = item.attributes.iter().find(|attribute| attribute.word == "type");
    let name = declared.map_or("", |attribute| attribute.value[0].as_str());
    DECLARED.iter().find(|entry| entry.0 == name).map_or(Type::Text, |entry| entry.1)
}

pub fn yes_or_no(random: &mut Random) -> Words {
    words(random.pick(&["yes", "no", "yes", "no", "'yes'", "'no'"]))
}

/// A schedule constraint on a task.
pub fn constraint(task: String) -> Attribute {
    Attribute::new("schedule_constraint", [words("completed ("), vec![task], words(")")].concat())
}

fn definition(owner: &Owner, random: &mut Random) -> Words {
    let mut made = [words(owner.word), words("::"), vec![spelled(&owner.name, random)], words(";")].concat();
    for attribute in &owner.attributes {
        made.extend(said(attribute));
        made.extend(attribute.inner.iter().flat_map(said));
    }
    made.extend(words("end"));
    made.extend(words(owner.word));
    made.extend(words("."));
    made
}

fn said(attribute: &Attribute) -> Words {
    [words(attribute.word), words("::"), attribute.value.clone(), words(";")].concat()
}
