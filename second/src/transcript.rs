//! `transcript`: a script of calls told for people, cycle by cycle: what each
//! task does, the rows it asks for, and what the table holds after that.

use std::collections::BTreeMap;
use std::fmt::Write;

use crate::calls::Session;
use crate::component::{Component, Kind, Property};
use crate::engine::Engine;
use crate::guideline::TaskState;
use crate::replay::watched_answer;
use crate::script::{calls, line, Call, Malformed};
use crate::tables::{Changes, RowValue};
use crate::value::Value;

/// What the calls of a script do to a guideline. It is loaded before them,
/// unless the script begins by loading it.
pub fn transcript(guideline: &[u8], script: &[u8]) -> Result<String, Malformed> {
    let mut session = Session::default();
    let mut told = String::new();
    let mut calls = calls(script)?;
    let load = Call::Load(guideline.to_vec());
    if calls.first() != Some(&load) {
        calls.insert(0, load);
    }
    for call in &calls {
        writeln!(told, "> {}", line(call)).expect(WRITTEN);
        told.push_str(&call_told(&mut session, call));
    }
    Ok(told)
}

const WRITTEN: &str = "writing to a string succeeds";

/// The cycles of a call, if it has any, and its answer.
fn call_told(session: &mut Session, call: &Call) -> String {
    let mut told = String::new();
    let mut cycle = 0;
    let answer = watched_answer(session, call, &mut |engine, changes| {
        cycle += 1;
        writeln!(told, "  cycle {cycle}, at {} s", engine.engine_time).expect(WRITTEN);
        told.push_str(&cycle_told(engine, changes));
    });
    match (call, session.reading()) {
        (Call::Rows, Ok(engine)) => told.push_str(&table_told(engine)),
        _ => write!(told, "  {answer}").expect(WRITTEN),
    }
    told
}

/// What the tasks do in a cycle, and the rows they ask for.
fn cycle_told(engine: &Engine, changes: &Changes) -> String {
    let deeds = [
        ("initialised", TaskState::Dormant),
        ("started", TaskState::InProgress),
        ("discarded", TaskState::Discarded),
        ("completed", TaskState::Completed),
    ];
    let mut told = String::new();
    for (deed, state) in deeds {
        let is_done = |task: &Component| changes.contains(&(*task, Property::State, RowValue::State(state)));
        let tasks: Vec<String> = engine.tasks().filter(is_done).map(|task| called(engine, task)).collect();
        if !tasks.is_empty() {
            writeln!(told, "    {deed}: {}", tasks.join(", ")).expect(WRITTEN);
        }
    }
    told + &rows_told(engine, changes)
}

/// The rows that are asked for, by component and property: what the table
/// holds, and what it will hold.
fn rows_told(engine: &Engine, changes: &Changes) -> String {
    let mut asked: BTreeMap<(Component, Property), Vec<String>> = BTreeMap::new();
    for (component, property, value) in changes {
        asked.entry((*component, *property)).or_default().push(value_told(engine, value));
    }
    let mut told = String::new();
    for ((component, property), mut values) in asked {
        values.sort();
        let before = engine.properties.get(component, property);
        let before = before.map_or("no row".to_string(), |value| value_told(engine, value));
        let after = match &values[..] {
            [only] => only.clone(),
            _ => format!("unknown, as {} collide: an exception", values.join(" and ")),
        };
        writeln!(told, "      {}, {property}: {before} -> {after}", called(engine, component))
            .expect(WRITTEN);
    }
    told
}

/// Every row there is, the time and the flag.
fn table_told(engine: &Engine) -> String {
    let mut told = String::new();
    for (component, property, value) in engine.properties.rows() {
        let value = value_told(engine, value);
        writeln!(told, "  {}, {property}: {value}", called(engine, component)).expect(WRITTEN);
    }
    let flag = if engine.exception { "set" } else { "not set" };
    told + &format!("  engine time {} s, Exception flag {flag}\n", engine.engine_time)
}

/// A component by its number, as calls have it, and its name.
fn called(engine: &Engine, component: Component) -> String {
    let kind = match component.kind {
        Kind::Task => "task",
        Kind::DataItem => "item",
        Kind::Source => "source",
    };
    let name = engine.properties.text(component, Property::Name).unwrap_or("the root");
    format!("{kind} {} ({name})", component.number)
}

fn value_told(engine: &Engine, value: &RowValue) -> String {
    match value {
        RowValue::Value(Value::Text(text)) => format!("{text:?}"),
        RowValue::Value(value) => value.to_string(),
        RowValue::Time(seconds) => format!("{seconds} s"),
        RowValue::State(state) => state.to_string(),
        RowValue::Class(class) => class.to_string(),
        RowValue::Type(declared) => declared.to_string(),
        RowValue::Component(component) => called(engine, *component),
        RowValue::Components(components) => {
            let names: Vec<String> = components.iter().map(|one| called(engine, *one)).collect();
            names.join(", ")
        }
        RowValue::Expression(_) => "an expression".to_string(),
        RowValue::Assertion(assignments) => {
            let items: Vec<String> = assignments.iter().map(|one| called(engine, one.0)).collect();
            format!("assigns to {}", items.join(", "))
        }
    }
}
