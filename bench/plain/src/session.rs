//! A series of calls, which starts with nothing loaded.

use crate::given::Given;
use crate::guideline::{load, Guideline, Run};
use crate::refusal::{Reason, Refusal};
use crate::rows::Row;

/// A guideline, or nothing.
#[derive(Debug, Default)]
pub struct Session(Option<Guideline>);

impl Session {
    /// A refused load leaves nothing loaded.
    pub fn load(&mut self, text: &[u8]) -> Result<(), Refusal> {
        self.0 = None;
        self.0 = Some(load(text)?);
        Ok(())
    }

    pub fn run(&mut self, bound: u64, lent: u64) -> Result<Run, Refusal> {
        self.loaded()?.run(bound, lent)
    }

    pub fn set_time(&mut self, seconds: u64) -> Result<(), Refusal> {
        self.loaded()?.set_time(seconds)
    }

    pub fn confirm(&mut self, task: usize) -> Result<(), Refusal> {
        self.loaded()?.confirm(task)
    }

    pub fn add(&mut self, item: usize, value: &Given) -> Result<(), Refusal> {
        self.loaded()?.add(item, value)
    }

    pub fn trigger(&mut self, trigger: &[u8]) -> Result<(), Refusal> {
        self.loaded()?.trigger(trigger)
    }

    pub fn row(&self, kind: usize, number: usize, property: usize) -> Result<Option<Row<'_>>, Refusal> {
        Ok(self.reading()?.row(kind, number, property))
    }

    /// What may be read: also after an exception, but not with nothing loaded.
    pub fn reading(&self) -> Result<&Guideline, Refusal> {
        self.0.as_ref().ok_or(Reason::NothingRuns.of_call())
    }

    fn loaded(&mut self) -> Result<&mut Guideline, Refusal> {
        self.0.as_mut().ok_or(Reason::NothingRuns.of_call())
    }
}
