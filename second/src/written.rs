//! A guideline as it is written: owners and their attributes, with places.
//! Names may still be wrong here and attributes repeated.

use crate::expression::Outermost;
use crate::grouping::group;
use crate::token::Token;
use crate::tree::Tree;

/// An atom's inner characters, and the place of its token.
#[derive(Clone, Debug, PartialEq, Eq)]
pub struct Name {
    pub text: String,
    pub place: usize,
}

/// What has attributes: a task, a data item, a component or a source.
#[derive(Debug)]
pub struct Owner {
    /// The reserved word that begins it: plan, action, enquiry, data, ...
    pub word: &'static str,
    pub name: Name,
    pub attributes: Vec<Attribute>,
}

/// One attribute: its reserved word, that word's place, and what is said.
#[derive(Debug)]
pub struct Attribute {
    pub word: &'static str,
    pub place: usize,
    pub body: Body,
}

/// What an attribute says.
#[derive(Debug)]
pub enum Body {
    Expression(Outermost),
    Assertion(Vec<Assignment>),
    /// A trigger, a type, or the task inside `completed( )`.
    Name(Name),
    YesOrNo(bool),
    /// A component or source, with attributes of its own.
    Owner(Owner),
}

/// `target = expression` in a postcondition.
#[derive(Debug)]
pub struct Assignment {
    pub target: Name,
    pub expression: Outermost,
}

/// The definitions of a guideline in the order of the text; the first task is
/// the root.
#[derive(Debug)]
pub struct Written {
    pub tasks: Vec<Owner>,
    pub data_items: Vec<Owner>,
}

/// What an expression must be (document 01's three added rules on types).
pub enum Wanted<'written> {
    /// A condition.
    Truth,
    /// A caption or description.
    Text,
    /// A value for this data item.
    Item(&'written Name),
}

impl Written {
    /// The guideline that a derivation of `<process>` stands for.
    pub fn from_tree(process: &Tree, tokens: &[Token]) -> Written {
        let owners = process.children.iter().map(|child| owner(child, tokens));
        let (data_items, tasks) = owners.partition(|owner| owner.word == "data");
        Written { tasks, data_items }
    }

    /// Every owner: each task and data item, and the owners inside it.
    pub fn owners(&self) -> impl Iterator<Item = &Owner> {
        let definitions = self.tasks.iter().chain(&self.data_items);
        definitions.flat_map(|owner| std::iter::once(owner).chain(owner.inner_owners()))
    }

    /// Every outermost expression, and what it must be.
    pub fn expressions(&self) -> impl Iterator<Item = (Wanted<'_>, &Outermost)> {
        self.owners().flat_map(|owner| &owner.attributes).flat_map(Attribute::expressions)
    }
}

impl Owner {
    /// The components and sources of a task.
    pub fn inner_owners(&self) -> impl Iterator<Item = &Owner> {
        self.attributes.iter().filter_map(|attribute| match &attribute.body {
            Body::Owner(owner) => Some(owner),
            _ => None,
        })
    }

    /// The components, or the sources, of a task.
    pub fn inner<'owner>(&'owner self, word: &'owner str) -> impl Iterator<Item = &'owner Owner> {
        self.inner_owners().filter(move |owner| owner.word == word)
    }

    /// The first attribute with this word.
    pub fn attribute(&self, word: &str) -> Option<&Body> {
        let found = self.attributes.iter().find(|attribute| attribute.word == word);
        found.map(|attribute| &attribute.body)
    }

    /// The assignments of a task's postconditions.
    pub fn assignments(&self) -> impl Iterator<Item = &Assignment> {
        self.attributes.iter().flat_map(|attribute| match &attribute.body {
            Body::Assertion(assignments) => assignments.as_slice(),
            _ => &[],
        })
    }

    /// The tasks that a component waits for.
    pub fn schedule_constraints(&self) -> impl Iterator<Item = &Name> {
        let constraints = self.attributes.iter().filter(|one| one.word == "schedule_constraint");
        constraints.filter_map(|attribute| match &attribute.body {
            Body::Name(name) => Some(name),
            _ => None,
        })
    }
}

impl Attribute {
    fn expressions(&self) -> Vec<(Wanted<'_>, &Outermost)> {
        match &self.body {
            Body::Expression(outermost) => {
                let is_text = matches!(self.word, "caption" | "description");
                vec![(if is_text { Wanted::Text } else { Wanted::Truth }, outermost)]
            }
            Body::Assertion(assignments) => {
                assignments.iter().map(|one| (Wanted::Item(&one.target), &one.expression)).collect()
            }
            _ => Vec::new(),
        }
    }
}

/// An owner's node: its word, `::`, its name, and then its attributes.
fn owner(node: &Tree, tokens: &[Token]) -> Owner {
    let attributes = node.children.iter().filter(|child| child.name != "data_name");
    Owner {
        word: word(node, tokens),
        name: name(&tokens[node.first + 2]),
        attributes: attributes.map(|child| attribute(child, tokens)).collect(),
    }
}

fn attribute(node: &Tree, tokens: &[Token]) -> Attribute {
    let third = &tokens[node.first + 2];
    let body = match node.name {
        "component" | "source" => Body::Owner(owner(node, tokens)),
        "trigger" | "data_type_definition" => Body::Name(name(third)),
        "schedule_constraint" => Body::Name(name(&tokens[node.first + 4])),
        "terminal_att" | "mandatory" => Body::YesOrNo(third.inner() == "yes"),
        "postcondition" => {
            Body::Assertion(node.children.iter().map(|child| assignment(child, tokens)).collect())
        }
        _ => Body::Expression(expression(node, tokens)),
    };
    Attribute { word: word(node, tokens), place: tokens[node.first].place, body }
}

fn assignment(node: &Tree, tokens: &[Token]) -> Assignment {
    Assignment { target: name(&tokens[node.first]), expression: expression(node, tokens) }
}

/// The expression that is this node's child.
fn expression(node: &Tree, tokens: &[Token]) -> Outermost {
    let leaf = node.children.first().expect("this attribute holds an expression");
    group(&tokens[leaf.first..leaf.end])
}

fn word(node: &Tree, tokens: &[Token]) -> &'static str {
    tokens[node.first].reserved().expect("an attribute begins with its word")
}

fn name(token: &Token) -> Name {
    Name { text: token.inner().to_string(), place: token.place }
}
