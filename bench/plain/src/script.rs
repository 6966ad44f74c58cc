//! Scripts of calls and how they are read (docs/REPLAY.md).

use crate::given::Given;

/// One call of a script.
#[derive(Debug)]
pub enum Call<'script> {
    Load(&'script [u8]),
    Run { bound: u64, lent: u64 },
    Time(u64),
    Confirm(usize),
    Add(usize, Given),
    Trigger(Vec<u8>),
    Row(usize, usize, usize),
    Rows,
}

/// The largest number of a task, item, kind, component, property or byte.
const LARGEST: u64 = u32::MAX as u64;
/// The largest bound or time.
const LARGEST_WIDE: u64 = i64::MAX as u64;
/// The most rows that can be lent.
const LARGEST_LENT: u64 = 8_192;
const LARGEST_INTEGER: u64 = i32::MAX as u64;
const LARGEST_REAL: u64 = 4_611_686_018_427_387_903;
const TEXT_BYTES: usize = 64;
const LIST_ELEMENTS: usize = 20;

/// The first call of a script, and what comes after it.
pub fn next_call(script: &[u8]) -> Result<(Call<'_>, &[u8]), String> {
    let end = script.iter().position(|byte| *byte == b'\n').ok_or("the last line does not end")?;
    let line = std::str::from_utf8(&script[..end]).map_err(|_| "a line is not of characters")?;
    let rest = &script[end + 1..];
    let Some(length) = line.strip_prefix("load ") else {
        return Ok((call(line)?, rest));
    };
    let (text, rest) = rest.split_at_checked(index(length)?).ok_or("a guideline is cut off")?;
    let rest = rest.strip_prefix(b"\n").ok_or("no newline follows a guideline")?;
    Ok((Call::Load(text), rest))
}

/// A call that stands on one line.
fn call(line: &str) -> Result<Call<'static>, String> {
    let mut words = line.split(' ');
    let mut word = || words.next().ok_or_else(|| format!("no call: {line}"));
    let call = match word()? {
        "run" => Call::Run { bound: number(word()?, LARGEST_WIDE)?, lent: number(word()?, LARGEST_LENT)? },
        "time" => Call::Time(number(word()?, LARGEST_WIDE)?),
        "confirm" => Call::Confirm(index(word()?)?),
        "add" => Call::Add(index(word()?)?, given(word()?)?),
        "trigger" => match word()? {
            "-" => Call::Trigger(Vec::new()),
            "" => return Err(format!("no call: {line}")),
            trigger => Call::Trigger(bytes(trigger)?),
        },
        "row" => Call::Row(index(word()?)?, index(word()?)?, index(word()?)?),
        "rows" => Call::Rows,
        _ => return Err(format!("no call: {line}")),
    };
    match words.next() {
        None => Ok(call),
        Some(_) => Err(format!("no call: {line}")),
    }
}

/// Decimal digits without a sign.
fn number(word: &str, largest: u64) -> Result<u64, String> {
    let is_decimal = word.bytes().all(|byte| byte.is_ascii_digit());
    let number = word.parse().ok().filter(|number| is_decimal && *number <= largest);
    number.ok_or_else(|| format!("no number: {word}"))
}

fn index(word: &str) -> Result<usize, String> {
    Ok(number(word, LARGEST)? as usize)
}

/// Decimal digits, perhaps with a minus sign.
fn signed(word: &str, largest: u64) -> Result<i64, String> {
    match word.strip_prefix('-') {
        Some(digits) => Ok(-(number(digits, largest)? as i64)),
        None => Ok(number(word, largest)? as i64),
    }
}

/// Bytes in hexadecimal.
fn bytes(word: &str) -> Result<Vec<u8>, String> {
    let digit = |byte: u8| char::from(byte).to_digit(16).map(|digit| digit as u8);
    let byte = |pair: &[u8]| match pair {
        [high, low] => Some(16 * digit(*high)? + digit(*low)?),
        _ => None,
    };
    let bytes: Option<Vec<u8>> = word.as_bytes().chunks(2).map(byte).collect();
    bytes.ok_or_else(|| format!("no bytes: {word}"))
}

/// A value: a list, or an element of one.
fn given(word: &str) -> Result<Given, String> {
    let Some(list) = word.strip_prefix("l(") else {
        return element(word);
    };
    let inner = list.strip_suffix(')').ok_or_else(|| format!("no list: {word}"))?;
    if inner.is_empty() {
        return Ok(Given::List(Vec::new()));
    }
    let elements: Vec<Given> = inner.split(',').map(element).collect::<Result<_, _>>()?;
    match elements.len() <= LIST_ELEMENTS {
        true => Ok(Given::List(elements)),
        false => Err(format!("no list: {word}")),
    }
}

fn element(word: &str) -> Result<Given, String> {
    let Some((letter, rest)) = word.split_at_checked(1) else {
        return Err(format!("no value: {word}"));
    };
    Ok(match (letter, rest) {
        ("u", "") => Given::Unknown,
        ("b", "0") => Given::Truth(false),
        ("b", "1") => Given::Truth(true),
        ("i", integer) => Given::Integer(signed(integer, LARGEST_INTEGER)?),
        ("r", thousandths) => Given::Real(signed(thousandths, LARGEST_REAL)?),
        ("t", text) if text.len() <= 2 * TEXT_BYTES => Given::Text(bytes(text)?),
        _ => return Err(format!("no value: {word}")),
    })
}
