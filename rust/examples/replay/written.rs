//! Answers: how they are written.

use std::fmt::Write;

use schotterei::{Class, Ending, Guideline, Refusal, Row, Run, Scalar, State, Type, Value};

pub fn run(run: Run) -> String {
    let ending = match run.ending {
        Ending::Quiet => "quiet",
        Ending::Bounded => "bounded",
        Ending::Exception => "exception",
    };
    format!("{ending} {}", run.cycles)
}

/// Every row, the time, the flag and a point.
pub fn rows(guideline: &Guideline) -> Result<String, Refusal> {
    let mut written = String::new();
    for (component, property, shown) in guideline.rows()? {
        let _ = writeln!(written, "{} {} {property} {}", component.kind, component.number, row(&shown));
    }
    Ok(written + &format!("time {}\nflag {}\n.", guideline.time(), u8::from(guideline.has_exception())))
}

pub fn row(row: &Row) -> String {
    match row {
        Row::There => "*".to_string(),
        Row::Value(shown) => value(shown),
        Row::State(shown) => state(*shown).to_string(),
        Row::Class(shown) => class(*shown).to_string(),
        Row::Type(shown) => declared(*shown).to_string(),
        Row::Time(seconds) => format!("@{seconds}"),
        Row::Component(component) => format!("#{}.{}", component.kind, component.number),
    }
}

fn value(value: &Value) -> String {
    match value {
        Value::One(one) => scalar(one),
        Value::List(elements) => {
            let elements: Vec<String> = elements.iter().map(scalar).collect();
            format!("l({})", elements.join(","))
        }
    }
}

fn scalar(scalar: &Scalar) -> String {
    match scalar {
        Scalar::Unknown => "u".to_string(),
        Scalar::Truth(truth) => format!("b{}", u8::from(*truth)),
        Scalar::Integer(integer) => format!("i{integer}"),
        Scalar::Real(thousandths) => format!("r{thousandths}"),
        Scalar::Text(text) => {
            format!("t{}", text.iter().map(|byte| format!("{byte:02x}")).collect::<String>())
        }
    }
}

fn state(state: State) -> &'static str {
    match state {
        State::Dormant => "dormant",
        State::InProgress => "in_progress",
        State::Discarded => "discarded",
        State::Completed => "completed",
    }
}

fn class(class: Class) -> &'static str {
    match class {
        Class::DataItem => "data_item",
        Class::Plan => "plan",
        Class::Enquiry => "enquiry",
        Class::Action => "action",
        Class::Source => "source",
    }
}

fn declared(declared: Type) -> &'static str {
    match declared {
        Type::Text => "text",
        Type::Integer => "integer",
        Type::Boolean => "boolean",
        Type::Datetime => "datetime",
        Type::Date => "date",
        Type::Time => "time",
        Type::Real => "real",
        Type::SetofText => "setof_text",
        Type::SetofInteger => "setof_integer",
        Type::SetofReal => "setof_real",
    }
}
