//! What operations, conditions and expressions ask of the Properties table.

use crate::component::{Class, Component, Kind, Property};
use crate::engine::Engine;
use crate::evaluate::{evaluate, State};
use crate::guideline::TaskState;
use crate::number::Number;
use crate::tables::RowValue;
use crate::value::Value;

impl Engine {
    pub fn class_is(&self, component: Component, class: Class) -> bool {
        self.properties.contains(component, Property::Class, &RowValue::Class(class))
    }

    pub fn state_is(&self, task: Component, state: TaskState) -> bool {
        self.properties.contains(task, Property::State, &RowValue::State(state))
    }

    /// Whether the row is there and says true.
    pub fn is_true(&self, component: Component, property: Property) -> bool {
        self.properties.contains(component, property, &RowValue::TRUE)
    }

    /// Whether the row is there and says false.
    pub fn is_false(&self, component: Component, property: Property) -> bool {
        self.properties.contains(component, property, &RowValue::FALSE)
    }

    /// The time in a row, if there is one: a start time may be unknown.
    pub fn time(&self, task: Component, property: Property) -> Option<u32> {
        match self.properties.get(task, property)? {
            RowValue::Time(time) => Some(*time),
            _ => None,
        }
    }

    /// The integer in a row, if there is one.
    pub fn integer(&self, task: Component, property: Property) -> Option<i64> {
        match self.properties.get(task, property)? {
            RowValue::Value(Value::Number(Number::Integer(integer))) => Some(*integer),
            _ => None,
        }
    }

    pub fn parent_plan(&self, task: Component) -> Option<Component> {
        self.properties.component(task, Property::ParentPlan)
    }

    /// The tasks whose parent plan this is.
    pub fn components(&self, plan: Component) -> impl Iterator<Item = Component> + '_ {
        self.tasks().filter(move |task| self.parent_plan(*task) == Some(plan))
    }

    /// Whether a condition comes to true; `None` if the task has no such row.
    pub fn holds(&self, task: Component, condition: Property) -> Option<bool> {
        match self.properties.get(task, condition)? {
            RowValue::Expression(expression) => Some(evaluate(expression, self) == Value::Truth(true)),
            _ => None,
        }
    }

    /// The component of a kind whose name row is this text, letter case
    /// ignored; no two of a kind have names that are alike so.
    fn named(&self, kind: Kind, name: &str) -> Option<Component> {
        let has_name = |component: &Component| {
            let its_name = self.properties.text(*component, Property::Name);
            its_name.is_some_and(|its_name| its_name.eq_ignore_ascii_case(name))
        };
        self.properties.components(kind).find(has_name)
    }
}

impl State for Engine {
    /// 9.5 and 9.2: an item without a value row is unknown.
    fn item_value(&self, name: &str) -> Option<Value> {
        let item = self.named(Kind::DataItem, name)?;
        match self.properties.get(item, Property::Value) {
            Some(RowValue::Value(value)) => Some(value.clone()),
            _ => Some(Value::Unknown),
        }
    }

    /// 9.6 and 11.2.10: the root has no name row, so no text finds it.
    fn task_is(&self, name: &str, state: TaskState) -> Option<bool> {
        let task = self.named(Kind::Task, name)?;
        Some(self.state_is(task, state))
    }
}
