//! `replay`: the answers to scripts of calls, line by line (docs/REPLAY.md).

use std::io::{self, Write};

use crate::guideline::{Ending, Guideline, Run};
use crate::number::Number;
use crate::refusal::Refusal;
use crate::rows::{property, Row, KINDS};
use crate::script::{next_call, Call};
use crate::session::Session;
use crate::value::Value;

/// Answers a whole script, and ends the answers with their last line. A script
/// that has not the form is not answered at all.
pub fn answer_script(mut script: &[u8], out: &mut impl Write) -> Result<(), Box<dyn std::error::Error>> {
    let mut calls = Vec::new();
    while !script.is_empty() {
        let (call, rest) = next_call(script)?;
        calls.push(call);
        script = rest;
    }
    let mut session = Session::default();
    for call in &calls {
        answer(&mut session, call, out)?;
    }
    Ok(out.write_all(b"--\n")?)
}

/// Answers one call: with a line, or with many for all rows.
fn answer(session: &mut Session, call: &Call, out: &mut impl Write) -> io::Result<()> {
    match call {
        Call::Load(text) => match session.load(text) {
            Ok(()) => writeln!(out, "loaded"),
            Err(refusal) => writeln!(out, "{refusal}"),
        },
        Call::Run { bound, lent } => match session.run(*bound, *lent) {
            Ok(run) => write_run(run, out),
            Err(refusal) => writeln!(out, "{refusal}"),
        },
        Call::Time(seconds) => write_done(session.set_time(*seconds), out),
        Call::Confirm(task) => write_done(session.confirm(*task), out),
        Call::Add(item, value) => write_done(session.add(*item, value), out),
        Call::Trigger(trigger) => write_done(session.trigger(trigger), out),
        Call::Row(kind, component, property) => match session.row(*kind, *component, *property) {
            Ok(Some(row)) => write_row(&row, out).and_then(|()| writeln!(out)),
            Ok(None) => writeln!(out, "none"),
            Err(refusal) => writeln!(out, "{refusal}"),
        },
        Call::Rows => match session.reading() {
            Ok(guideline) => write_rows(guideline, out),
            Err(refusal) => writeln!(out, "{refusal}"),
        },
    }
}

fn write_done(answered: Result<(), Refusal>, out: &mut impl Write) -> io::Result<()> {
    match answered {
        Ok(()) => writeln!(out, "done"),
        Err(refusal) => writeln!(out, "{refusal}"),
    }
}

fn write_run(run: Run, out: &mut impl Write) -> io::Result<()> {
    let ending = match run.ending {
        Ending::Quiet => "quiet",
        Ending::Bounded => "bounded",
        Ending::Exception => "exception",
    };
    writeln!(out, "{ending} {}", run.cycles)
}

/// Every row, the time, the flag and a point.
fn write_rows(guideline: &Guideline, out: &mut impl Write) -> io::Result<()> {
    for kind in 0..KINDS {
        for component in 0..guideline.count(kind) {
            for property in 0..property::COUNT {
                if let Some(row) = guideline.row(kind, component, property) {
                    write!(out, "{kind} {component} {property} ")?;
                    write_row(&row, out)?;
                    writeln!(out)?;
                }
            }
        }
    }
    let flag = u8::from(guideline.exception());
    writeln!(out, "time {}\nflag {flag}\n.", guideline.engine_time())
}

/// What a row holds.
fn write_row(row: &Row, out: &mut impl Write) -> io::Result<()> {
    match row {
        Row::Unknown => out.write_all(b"u"),
        Row::Truth(truth) => write!(out, "b{}", u8::from(*truth)),
        Row::Integer(integer) => write!(out, "i{integer}"),
        Row::Text(text) => write_text(text, out),
        Row::Value(value) => write_value(value, out),
        Row::Time(seconds) => write!(out, "@{seconds}"),
        Row::State(state) => out.write_all(state.name().as_bytes()),
        Row::TaskClass(class) => out.write_all(class.name().as_bytes()),
        Row::DataItemClass => out.write_all(b"data_item"),
        Row::SourceClass => out.write_all(b"source"),
        Row::Type(declared) => out.write_all(declared.name().as_bytes()),
        Row::Component(kind, number) => write!(out, "#{kind}.{number}"),
        Row::There => out.write_all(b"*"),
    }
}

fn write_value(value: &Value, out: &mut impl Write) -> io::Result<()> {
    match value {
        Value::Unknown => out.write_all(b"u"),
        Value::Truth(truth) => write!(out, "b{}", u8::from(*truth)),
        Value::Number(Number::Integer(integer)) => write!(out, "i{integer}"),
        Value::Number(Number::Real(thousandths)) => write!(out, "r{thousandths}"),
        Value::Text(text) => write_text(text, out),
        Value::List(elements) => {
            out.write_all(b"l(")?;
            for (index, element) in elements.iter().enumerate() {
                out.write_all(if index == 0 { b"" } else { b"," })?;
                write_value(element, out)?;
            }
            out.write_all(b")")
        }
    }
}

/// A text, in hexadecimal.
fn write_text(text: &[u8], out: &mut impl Write) -> io::Result<()> {
    out.write_all(b"t")?;
    text.iter().try_for_each(|byte| write!(out, "{byte:02x}"))
}
