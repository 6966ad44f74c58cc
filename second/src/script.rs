//! Scripts of calls: how they are read, and how they are written
//! (docs/REPLAY.md).

use crate::given::Given;

/// One call of a script.
#[derive(Clone, Debug, PartialEq, Eq)]
pub enum Call {
    Load(Vec<u8>),
    Run { bound: u64, lent: u64 },
    Time(u64),
    Confirm(usize),
    Add(usize, Given),
    Trigger(Vec<u8>),
    Row(usize, usize, usize),
    Rows,
}

/// What is said of a script that has not the form.
pub type Malformed = String;

/// The calls of a script.
pub fn calls(mut script: &[u8]) -> Result<Vec<Call>, Malformed> {
    let mut calls = Vec::new();
    while !script.is_empty() {
        let (call, rest) = next_call(script)?;
        calls.push(call);
        script = rest;
    }
    Ok(calls)
}

/// The first call of a script, and what comes after it.
fn next_call(script: &[u8]) -> Result<(Call, &[u8]), Malformed> {
    let end = script.iter().position(|byte| *byte == b'\n').ok_or("the last line does not end")?;
    let line = std::str::from_utf8(&script[..end]).map_err(|_| "a line is not of characters")?;
    let rest = &script[end + 1..];
    let Some(length) = line.strip_prefix("load ") else {
        return Ok((call(line)?, rest));
    };
    let (text, rest) = rest.split_at_checked(number(length)?).ok_or("a guideline is cut off")?;
    let rest = rest.strip_prefix(b"\n").ok_or("no newline follows a guideline")?;
    Ok((Call::Load(text.to_vec()), rest))
}

/// A call that stands on one line.
fn call(line: &str) -> Result<Call, Malformed> {
    let words: Vec<&str> = line.split(' ').collect();
    Ok(match words[..] {
        ["run", bound, lent] => Call::Run { bound: number(bound)?, lent: number(lent)? },
        ["time", seconds] => Call::Time(number(seconds)?),
        ["confirm", task] => Call::Confirm(number(task)?),
        ["add", item, value] => Call::Add(number(item)?, given(value)?),
        ["trigger", "-"] => Call::Trigger(Vec::new()),
        ["trigger", trigger] => Call::Trigger(bytes(trigger)?),
        ["row", kind, component, property] => Call::Row(number(kind)?, number(component)?, number(property)?),
        ["rows"] => Call::Rows,
        _ => return Err(format!("no call: {line}")),
    })
}

fn number<N: std::str::FromStr>(word: &str) -> Result<N, Malformed> {
    word.parse().map_err(|_| format!("no number: {word}"))
}

/// Bytes in hexadecimal.
fn bytes(word: &str) -> Result<Vec<u8>, Malformed> {
    let digit = |byte: &u8| char::from(*byte).to_digit(16).ok_or(format!("no bytes: {word}"));
    let digits: Vec<u32> = word.as_bytes().iter().map(digit).collect::<Result<_, _>>()?;
    match digits.len() % 2 {
        0 => Ok(digits.chunks(2).map(|pair| (16 * pair[0] + pair[1]) as u8).collect()),
        _ => Err(format!("half a byte: {word}")),
    }
}

fn given(word: &str) -> Result<Given, Malformed> {
    let Some((letter, rest)) = word.split_at_checked(1) else {
        return Err(format!("no value: {word}"));
    };
    Ok(match (letter, rest) {
        ("u", "") => Given::Unknown,
        ("b", "0") => Given::Truth(false),
        ("b", "1") => Given::Truth(true),
        ("i", integer) => Given::Integer(number(integer)?),
        ("r", thousandths) => Given::Real(number(thousandths)?),
        ("t", text) => Given::Text(bytes(text)?),
        ("l", "()") => Given::List(Vec::new()),
        ("l", list) => {
            let inner = list.strip_prefix('(').and_then(|list| list.strip_suffix(')'));
            let elements = inner.ok_or(format!("no list: {word}"))?.split(',').map(given);
            Given::List(elements.collect::<Result<_, _>>()?)
        }
        _ => return Err(format!("no value: {word}")),
    })
}

/// The script of some calls.
pub fn written(calls: &[Call]) -> Vec<u8> {
    let mut script = Vec::new();
    for call in calls {
        script.extend(line(call).into_bytes());
        script.push(b'\n');
        if let Call::Load(text) = call {
            script.extend(text);
            script.push(b'\n');
        }
    }
    script
}

/// The line of a call.
pub fn line(call: &Call) -> String {
    match call {
        Call::Load(text) => format!("load {}", text.len()),
        Call::Run { bound, lent } => format!("run {bound} {lent}"),
        Call::Time(seconds) => format!("time {seconds}"),
        Call::Confirm(task) => format!("confirm {task}"),
        Call::Add(item, value) => format!("add {item} {}", written_value(value)),
        Call::Trigger(trigger) if trigger.is_empty() => "trigger -".to_string(),
        Call::Trigger(trigger) => format!("trigger {}", hexadecimal(trigger)),
        Call::Row(kind, component, property) => format!("row {kind} {component} {property}"),
        Call::Rows => "rows".to_string(),
    }
}

/// A value as scripts and answers have it.
pub fn written_value(value: &Given) -> String {
    match value {
        Given::Unknown => "u".to_string(),
        Given::Truth(truth) => format!("b{}", u8::from(*truth)),
        Given::Integer(integer) => format!("i{integer}"),
        Given::Real(thousandths) => format!("r{thousandths}"),
        Given::Text(text) => format!("t{}", hexadecimal(text)),
        Given::List(elements) => {
            let written: Vec<String> = elements.iter().map(written_value).collect();
            format!("l({})", written.join(","))
        }
    }
}

fn hexadecimal(bytes: &[u8]) -> String {
    bytes.iter().map(|byte| format!("{byte:02x}")).collect()
}
