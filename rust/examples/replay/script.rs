//! Scripts of calls: how they are read.

use schotterei::{Component, Scalar, Value};

/// One call of a script.
pub enum Call {
    Load(Vec<u8>),
    /// The bound, and the rows lent.
    Run(u64, usize),
    Time(u64),
    Confirm(u64),
    Add(u64, Value),
    Trigger(Vec<u8>),
    Row(Component, u64),
    Rows,
}

/// The calls of a script.
pub fn calls(mut script: &[u8]) -> Result<Vec<Call>, String> {
    let mut calls = Vec::new();
    while !script.is_empty() {
        let (call, rest) = next_call(script)?;
        calls.push(call);
        script = rest;
    }
    Ok(calls)
}

/// The first bytes of a text, and those behind them, if there are so many.
pub fn split(text: &[u8], length: usize) -> Option<(&[u8], &[u8])> {
    (length <= text.len()).then(|| text.split_at(length))
}

/// The first call of a script, and what comes after it.
fn next_call(script: &[u8]) -> Result<(Call, &[u8]), String> {
    let end = script.iter().position(|byte| *byte == b'\n').ok_or("the last line does not end")?;
    let line = std::str::from_utf8(&script[..end]).map_err(|_| "a line is not of characters")?;
    let rest = &script[end + 1..];
    match line.strip_prefix("load ") {
        Some(length) => load(number(length)?, rest),
        None => Ok((call(line)?, rest)),
    }
}

/// The guideline of so many bytes that stands behind its line, and what comes after it.
fn load(length: usize, rest: &[u8]) -> Result<(Call, &[u8]), String> {
    let (text, rest) = split(rest, length).ok_or("a guideline is cut off")?;
    let rest = rest.strip_prefix(b"\n").ok_or("no newline follows a guideline")?;
    Ok((Call::Load(text.to_vec()), rest))
}

/// A call that stands on one line.
fn call(line: &str) -> Result<Call, String> {
    let words: Vec<&str> = line.split(' ').collect();
    Ok(match words[..] {
        ["run", bound, lent] => Call::Run(number(bound)?, number(lent)?),
        ["time", seconds] => Call::Time(number(seconds)?),
        ["confirm", task] => Call::Confirm(number(task)?),
        ["add", item, value] => Call::Add(number(item)?, given(value)?),
        ["trigger", "-"] => Call::Trigger(Vec::new()),
        ["trigger", trigger] => Call::Trigger(bytes(trigger)?),
        ["row", kind, component, property] => {
            let component = Component { kind: number(kind)?, number: number(component)? };
            Call::Row(component, number(property)?)
        }
        ["rows"] => Call::Rows,
        _ => return Err(format!("no call: {line}")),
    })
}

fn number<N: std::str::FromStr>(word: &str) -> Result<N, String> {
    word.parse().map_err(|_| format!("no number: {word}"))
}

/// Bytes in hexadecimal.
fn bytes(word: &str) -> Result<Vec<u8>, String> {
    let digit = |byte: &u8| char::from(*byte).to_digit(16).ok_or(format!("no bytes: {word}"));
    let digits: Vec<u32> = word.as_bytes().iter().map(digit).collect::<Result<_, _>>()?;
    match digits.len() % 2 {
        0 => Ok(digits.chunks(2).map(|pair| (16 * pair[0] + pair[1]) as u8).collect()),
        _ => Err(format!("half a byte: {word}")),
    }
}

fn given(word: &str) -> Result<Value, String> {
    match word.strip_prefix('l') {
        Some(list) => elements(list).map(Value::List),
        None => scalar(word).map(Value::One),
    }
}

/// The elements of a list, between its parentheses.
fn elements(list: &str) -> Result<Vec<Scalar>, String> {
    let inner = list.strip_prefix('(').and_then(|list| list.strip_suffix(')'));
    match inner.ok_or(format!("no list: l{list}"))? {
        "" => Ok(Vec::new()),
        inner => inner.split(',').map(scalar).collect(),
    }
}

fn scalar(word: &str) -> Result<Scalar, String> {
    let parts = word.get(..1).zip(word.get(1..));
    let (letter, rest) = parts.ok_or(format!("no value: {word}"))?;
    Ok(match (letter, rest) {
        ("u", "") => Scalar::Unknown,
        ("b", "0") => Scalar::Truth(false),
        ("b", "1") => Scalar::Truth(true),
        ("i", integer) => Scalar::Integer(number(integer)?),
        ("r", thousandths) => Scalar::Real(number(thousandths)?),
        ("t", text) => Scalar::Text(bytes(text)?),
        _ => return Err(format!("no value: {word}")),
    })
}
