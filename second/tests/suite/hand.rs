//! Engines whose Properties table is set by hand, row by row.

use second::component::{Component, Property};
use second::engine::Engine;
use second::guideline::TaskState;
use second::load::load;
use second::replay::written_row;
use second::tables::{Changes, RowValue};

use crate::tree;

/// The tasks of `family`, in the order of the text.
pub const ROOT: usize = 0;
pub const P: usize = 1;
pub const A: usize = 2;
pub const B: usize = 3;
pub const C: usize = 4;

/// A root with the plan p, and in it the actions a, b and c; attributes of the
/// root, of p, of the component c and of the task c. Item 0 is x, an integer,
/// item 1 is y, a real.
pub fn family(root: &str, p: &str, component: &str, c: &str) -> Hand {
    Hand::of(&format!(
        "plan::root;{root}component::p;end plan.\
         plan::p;{p}component::a;component::b;component::c;{component}end plan.\
         action::a;end action.action::b;end action.action::c;{c}end action.\
         data::x;type::integer;end data.data::y;type::real;end data."
    ))
}

/// Two schedule constraints: c waits for a and b.
pub const WAITS: &str = "schedule_constraint::completed(a);schedule_constraint::completed(b);";

#[derive(Clone)]
pub struct Hand(pub Engine);

impl Hand {
    pub fn of(text: &str) -> Hand {
        Hand(Engine::load_guideline(&load(text.as_bytes()).expect("the guideline loads")))
    }

    pub fn row(&self, component: Component, property: Property, value: RowValue) -> Hand {
        let mut other = self.clone();
        other.0.properties.set(component, property, value);
        other
    }

    pub fn state(&self, task: usize, state: TaskState) -> Hand {
        self.row(Component::task(task), Property::State, RowValue::State(state))
    }

    pub fn truth(&self, task: usize, property: Property, truth: bool) -> Hand {
        self.row(Component::task(task), property, RowValue::truth(truth))
    }

    pub fn condition(&self, task: usize, property: Property, expression: &str) -> Hand {
        self.row(Component::task(task), property, RowValue::Expression(tree(expression)))
    }

    pub fn start_at(&self, task: usize, seconds: u32) -> Hand {
        self.row(Component::task(task), Property::StartAt, RowValue::Time(seconds))
    }

    pub fn requested(&self, item: usize, truth: bool) -> Hand {
        self.row(Component::data_item(item), Property::Requested, RowValue::truth(truth))
    }

    pub fn time(&self, seconds: u32) -> Hand {
        let mut other = self.clone();
        other.0.engine_time = seconds;
        other
    }

    pub fn without(&self, task: usize, property: Property) -> Hand {
        let mut other = self.clone();
        other.0.properties.remove(Component::task(task), property);
        other
    }

    pub fn initialise(&self, task: usize) -> bool {
        self.0.initialise_conditions(Component::task(task))
    }

    pub fn start(&self, task: usize) -> bool {
        self.0.start_conditions(Component::task(task))
    }

    pub fn discard(&self, task: usize) -> bool {
        self.0.discard_conditions(Component::task(task))
    }

    pub fn complete(&self, task: usize) -> bool {
        self.0.complete_conditions(Component::task(task))
    }

    pub fn scheduled_start(&self, task: usize) -> bool {
        self.0.scheduled_start_conditions(Component::task(task))
    }

    pub fn schedule(&self, task: usize) -> bool {
        self.0.schedule_conditions(Component::task(task))
    }

    pub fn cycle(&self, task: usize) -> bool {
        self.0.cycle_conditions(Component::task(task))
    }

    pub fn termination(&self, task: usize) -> bool {
        self.0.termination_conditions(Component::task(task))
    }

    /// The rows that an operation on a task asks for, by their numbers.
    pub fn asked(&self, task: usize, operation: fn(&Engine, Component, &mut Changes)) -> Vec<String> {
        let mut changes = Changes::new();
        operation(&self.0, Component::task(task), &mut changes);
        let mut rows: Vec<_> = changes.into_iter().collect();
        rows.sort_by_key(|row| (row.0, row.1, written_row(&row.2)));
        let written = |(component, property, value): &(Component, Property, RowValue)| {
            let (kind, property) = (component.kind as usize, *property as usize);
            format!("{kind} {} {property} {}", component.number, written_row(value))
        };
        rows.iter().map(written).collect()
    }
}
