//! `replay`: the answers to scripts of calls, line by line (docs/REPLAY.md).

use std::fmt::Write;

use crate::calls::Session;
use crate::engine::{Ending, Engine, Run};
use crate::given::Given;
use crate::number::Number;
use crate::refusal::Refusal;
use crate::script::{calls, written_value, Call, Malformed};
use crate::tables::{Changes, RowValue};
use crate::value::Value;

/// The answers to a whole script, and the line that ends them.
pub fn answers(script: &[u8]) -> Result<String, Malformed> {
    let mut session = Session::default();
    let mut answers: String = calls(script)?.iter().map(|call| answer(&mut session, call)).collect();
    answers.push_str("--\n");
    Ok(answers)
}

/// The answer to one call: a line, or many for all rows.
pub fn answer(session: &mut Session, call: &Call) -> String {
    watched_answer(session, call, &mut |_, _| {})
}

/// The same, while `watch` is shown each cycle's rows.
pub fn watched_answer(
    session: &mut Session,
    call: &Call,
    watch: &mut dyn FnMut(&Engine, &Changes),
) -> String {
    let done = |()| "done".to_string();
    let answered = match call {
        Call::Load(text) => session.load(text).map(|()| "loaded".to_string()),
        Call::Run { bound, lent } => session.run(*bound, *lent, watch).map(written_run),
        Call::Time(seconds) => session.set_time(*seconds).map(done),
        Call::Confirm(task) => session.confirm(*task).map(done),
        Call::Add(item, value) => session.add(*item, value).map(done),
        Call::Trigger(trigger) => session.trigger(trigger).map(done),
        Call::Row(kind, component, property) => {
            let row = session.row(*kind, *component, *property);
            row.map(|row| row.map_or("none".to_string(), written_row))
        }
        Call::Rows => session.reading().map(written_rows),
    };
    answered.unwrap_or_else(|refusal: Refusal| refusal.to_string()) + "\n"
}

fn written_run(run: Run) -> String {
    let ending = match run.ending {
        Ending::Quiet => "quiet",
        Ending::Bounded => "bounded",
        Ending::Exception => "exception",
    };
    format!("{ending} {}", run.cycles)
}

/// Every row, the time, the flag and a point.
fn written_rows(engine: &Engine) -> String {
    let mut written = String::new();
    for (component, property, value) in engine.properties.rows() {
        let (kind, number, property) = (component.kind as usize, component.number, property as usize);
        let value = written_row(value);
        writeln!(written, "{kind} {number} {property} {value}").expect("writing to a string succeeds");
    }
    written + &format!("time {}\nflag {}\n.", engine.engine_time, u8::from(engine.exception))
}

/// A row's value.
pub fn written_row(value: &RowValue) -> String {
    match value {
        RowValue::Value(value) => written_value(&given(value)),
        RowValue::Time(seconds) => format!("@{seconds}"),
        RowValue::State(state) => state.to_string(),
        RowValue::Class(class) => class.to_string(),
        RowValue::Type(declared) => declared.to_string(),
        RowValue::Component(component) => format!("#{}.{}", component.kind as usize, component.number),
        RowValue::Components(_) | RowValue::Expression(_) | RowValue::Assertion(_) => "*".to_string(),
    }
}

/// A value as a caller would give it.
fn given(value: &Value) -> Given {
    match value {
        Value::Unknown => Given::Unknown,
        Value::Truth(truth) => Given::Truth(*truth),
        Value::Number(Number::Integer(integer)) => Given::Integer(*integer),
        Value::Number(Number::Real(thousandths)) => Given::Real(*thousandths),
        Value::Text(text) => Given::Text(text.clone().into_bytes()),
        Value::List(elements) => Given::List(elements.iter().map(given).collect()),
    }
}
