//! The public calls and their refusals: 7, 8, 9, 6 in that order. A refused
//! load leaves nothing loaded; any other refused call changes nothing.

use crate::component::{Component, Property};
use crate::engine::{Engine, Run};
use crate::given::{given_text, Given};
use crate::limits;
use crate::load;
use crate::refusal::{Reason, Refusal};
use crate::tables::{Changes, RowValue};

/// A series of calls; at first nothing is loaded.
#[derive(Clone, Debug, Default)]
pub struct Session {
    engine: Option<Engine>,
}

impl Session {
    pub fn load(&mut self, text: &[u8]) -> Result<(), Refusal> {
        self.engine = None;
        self.engine = Some(Engine::load_guideline(&load::load(text)?));
        Ok(())
    }

    /// Runs with a bound and some rows of a Changes table lent. `watch` is
    /// shown each cycle's rows.
    pub fn run(
        &mut self,
        bound: u64,
        lent: u64,
        watch: &mut dyn FnMut(&Engine, &Changes),
    ) -> Result<Run, Refusal> {
        let engine = self.running()?;
        within_limits(bound <= limits::CYCLES && lent >= limits::CHANGES_ROWS)?;
        Ok(engine.run_engine(bound, watch))
    }

    pub fn set_time(&mut self, seconds: u64) -> Result<(), Refusal> {
        let engine = self.running()?;
        within_limits(seconds <= limits::ENGINE_TIME)?;
        engine.set_engine_time(seconds as u32);
        Ok(())
    }

    pub fn confirm(&mut self, task: usize) -> Result<(), Refusal> {
        let engine = self.running()?;
        let task = there(engine, Component::task(task))?;
        engine.confirm_task(task);
        Ok(())
    }

    pub fn add(&mut self, item: usize, given: &Given) -> Result<(), Refusal> {
        let engine = self.running()?;
        let item = there(engine, Component::data_item(item))?;
        let Some(RowValue::Type(declared)) = engine.properties.get(item, Property::Type) else {
            unreachable!("a data item has a type")
        };
        let value = given.judged(*declared).map_err(Reason::of_call)?;
        engine.add_data_value(item, value);
        Ok(())
    }

    pub fn trigger(&mut self, trigger: &[u8]) -> Result<(), Refusal> {
        let engine = self.running()?;
        let trigger = given_text(trigger).ok_or(Reason::Limit.of_call())?;
        engine.send_trigger(&trigger);
        Ok(())
    }

    /// What may be read: also after an exception, but not with nothing loaded.
    pub fn reading(&self) -> Result<&Engine, Refusal> {
        self.engine.as_ref().ok_or(Reason::NothingRuns.of_call())
    }

    /// A row, by the numbers of its kind, component and property.
    pub fn row(&self, kind: usize, number: usize, property: usize) -> Result<Option<&RowValue>, Refusal> {
        let is_asked_for = |component: Component, its_property: Property| {
            (component.kind as usize, component.number, its_property as usize) == (kind, number, property)
        };
        let mut rows = self.reading()?.properties.rows();
        Ok(rows.find(|row| is_asked_for(row.0, row.1)).map(|row| row.2))
    }

    /// Refusal 7 of every call but load and reading.
    fn running(&mut self) -> Result<&mut Engine, Refusal> {
        let engine = self.engine.as_mut().filter(|engine| !engine.exception);
        engine.ok_or(Reason::NothingRuns.of_call())
    }
}

/// Refusal 8: the component, if there is one with its number.
fn there(engine: &Engine, component: Component) -> Result<Component, Refusal> {
    let is_there = engine.properties.get(component, Property::Class).is_some();
    is_there.then_some(component).ok_or(Reason::NoComponent.of_call())
}

/// Refusal 6.
fn within_limits(fits: bool) -> Result<(), Refusal> {
    fits.then_some(()).ok_or(Reason::Limit.of_call())
}
