//! The proved engine, as a season drives it.

use plain::season::Engine;
use plain::Given;
use schotterei::{kind, property, Component, Ending, Guideline, Refusal, Row, Run, Scalar, State, Value};

/// The rows lent are this crate's own, as many as a run wants.
pub struct Proved(Guideline);

impl Default for Proved {
    fn default() -> Proved {
        Proved(Guideline::empty())
    }
}

impl Engine for Proved {
    fn load(&mut self, text: &[u8]) -> u64 {
        number(self.0.reload(text))
    }

    fn run(&mut self, bound: u64, _: u64) -> u64 {
        let ending = |run: Run| match run.ending {
            Ending::Quiet => 1_000,
            Ending::Bounded => 2_000,
            Ending::Exception => 3_000,
        };
        match self.0.run(bound) {
            Ok(run) => ending(run) + u64::from(run.cycles),
            Err(refusal) => number(Err(refusal)),
        }
    }

    fn set_time(&mut self, seconds: u64) -> u64 {
        number(self.0.set_time(seconds))
    }

    fn confirm(&mut self, task: usize) -> u64 {
        number(self.0.confirm(task as u64))
    }

    fn add(&mut self, item: usize, value: &Given) -> u64 {
        number(self.0.add(item as u64, &given(value)))
    }

    fn trigger(&mut self, trigger: &[u8]) -> u64 {
        number(self.0.trigger(trigger))
    }

    fn state(&mut self, task: usize) -> u64 {
        let task = Component { kind: kind::TASK, number: task as u64 };
        match self.0.read(task, property::STATE) {
            Ok(Some(Row::State(State::Dormant))) => 1,
            Ok(Some(Row::State(State::InProgress))) => 2,
            Ok(Some(Row::State(State::Discarded))) => 3,
            Ok(Some(Row::State(State::Completed))) => 4,
            _ => 0,
        }
    }
}

/// The same value for the proved engine; a season has no list within a list.
fn given(value: &Given) -> Value {
    match value {
        Given::List(elements) => Value::List(elements.iter().map(scalar).collect()),
        one => Value::One(scalar(one)),
    }
}

fn scalar(value: &Given) -> Scalar {
    match value {
        Given::Unknown | Given::List(_) => Scalar::Unknown,
        Given::Truth(truth) => Scalar::Truth(*truth),
        Given::Integer(integer) => Scalar::Integer(*integer),
        Given::Real(thousandths) => Scalar::Real(*thousandths),
        Given::Text(text) => Scalar::Text(text.clone()),
    }
}

/// 0 for done, or the refusal's number.
fn number(answered: Result<(), Refusal>) -> u64 {
    answered.map_or_else(|refusal| u64::from(refusal.number), |()| 0)
}
