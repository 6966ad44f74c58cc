//! Section 12: the rows that loading a guideline puts into the Properties
//! table. Component identifiers are not made up but counted in the order of
//! the text. Captions and descriptions get no rows; 12.6 and 12.7 are about
//! decisions, which the first edition leaves out.

use crate::component::{Class, Component, Property};
use crate::expression::Expression;
use crate::guideline::{DataItem, Guideline, Source, TaskClass, TaskState};
use crate::tables::{Properties, RowValue};

/// Section 12's operations on the table in the making.
struct Loading<'guideline> {
    guideline: &'guideline Guideline,
    properties: Properties,
}

/// 12.1, The Operation LoadGuideline(G).
pub fn load_guideline(guideline: &Guideline) -> Properties {
    let mut loading = Loading { guideline, properties: Properties::default() };
    loading.instantiate_task(0);
    for (number, item) in guideline.data_items.iter().enumerate() {
        loading.instantiate_data_item(Component::data_item(number), item);
    }
    loading.properties
}

impl Loading<'_> {
    fn add(&mut self, component: Component, property: Property, value: RowValue) {
        self.properties.set(component, property, value);
    }

    /// 12.2, The Operation InstantiateTask(G,T,C).
    fn instantiate_task(&mut self, number: usize) {
        let task = Component::task(number);
        let class = self.guideline.tasks[number].class;
        self.add(task, Property::Class, RowValue::Class(class.into()));
        self.add(task, Property::State, RowValue::State(TaskState::Dormant));
        self.set_task_attributes(number);
        for component in self.components(number) {
            self.instantiate_component(component);
        }
    }

    /// The tasks that are components of a plan.
    fn components(&self, plan: usize) -> Vec<usize> {
        let tasks = self.guideline.tasks.iter().enumerate();
        tasks.filter(|(_, task)| task.parent_plan == Some(plan)).map(|(number, _)| number).collect()
    }

    /// 12.3, The Operation InstantiateComponent(G,C,A). The class is asked for
    /// whenever it comes into the table (docs/DECISIONS.md, Rows).
    fn instantiate_component(&mut self, number: usize) {
        let is_action = self.guideline.tasks[number].class == TaskClass::Action;
        self.add(Component::task(number), Property::Confirmatory, RowValue::truth(is_action));
        self.set_component_attributes(number);
        self.instantiate_task(number);
    }

    /// 12.4, The Operation SetComponentAttribute(C,CP,A), for every attribute.
    fn set_component_attributes(&mut self, number: usize) {
        let (task, written) = (Component::task(number), &self.guideline.tasks[number]);
        if !written.antecedent_tasks.is_empty() {
            let antecedents = written.antecedent_tasks.iter().map(|one| Component::task(*one)).collect();
            self.add(task, Property::AntecedentTasks, RowValue::Components(antecedents));
        }
        if let Some(terminal) = written.terminal {
            self.add(task, Property::Terminal, RowValue::truth(terminal));
        }
    }

    /// 12.5, The Operation SetTaskAttribute(G,C,Att), for every attribute.
    fn set_task_attributes(&mut self, number: usize) {
        let (task, written) = (Component::task(number), &self.guideline.tasks[number]);
        for component in self.components(number) {
            let name = RowValue::text(&self.guideline.tasks[component].name);
            self.add(Component::task(component), Property::Name, name);
            self.add(Component::task(component), Property::ParentPlan, RowValue::Component(task));
        }
        for source in &written.sources {
            self.instantiate_source(task, Component::source(*source), &self.guideline.sources[*source]);
        }
        self.add_expression(task, Property::Precondition, &written.precondition);
        self.add_expression(task, Property::WaitCondition, &written.wait_condition);
        if let Some(trigger) = &written.trigger {
            self.add(task, Property::Trigger, RowValue::text(trigger));
        }
        if let Some(assignments) = &written.postcondition {
            let assigned = assignments.iter().map(|(item, e)| (Component::data_item(*item), e.clone()));
            self.add(task, Property::Postcondition, RowValue::Assertion(assigned.collect()));
        }
        self.add_expression(task, Property::TerminateCondition, &written.terminate_condition);
    }

    fn add_expression(&mut self, task: Component, property: Property, written: &Option<Expression>) {
        if let Some(expression) = written {
            self.add(task, property, RowValue::Expression(expression.clone()));
        }
    }

    /// 12.8, The Operation InstantiateSource(C,S).
    fn instantiate_source(&mut self, task: Component, source: Component, written: &Source) {
        let name = &self.guideline.data_items[written.data_item].name;
        self.add(source, Property::Class, RowValue::Class(Class::Source));
        self.add(source, Property::Name, RowValue::text(name));
        let sources = [self.properties.sequence(task, Property::Sources), &[source]].concat();
        self.add(task, Property::Sources, RowValue::Components(sources));
        let item = Component::data_item(written.data_item);
        self.add(source, Property::DataItem, RowValue::Component(item));
        if let Some(mandatory) = written.mandatory {
            self.add(source, Property::Mandatory, RowValue::truth(mandatory));
        }
    }

    /// 12.9, The Operation InstantiateDataItem(Def).
    fn instantiate_data_item(&mut self, item: Component, written: &DataItem) {
        self.add(item, Property::Class, RowValue::Class(Class::DataItem));
        self.add(item, Property::Name, RowValue::text(&written.name));
        self.add(item, Property::Type, RowValue::Type(written.declared));
    }
}
