//! Document 01's small program: one expression a line, without data items.

use std::io::{self, Write};

use crate::evaluate::{evaluate, State};
use crate::guideline::TaskState;
use crate::load;
use crate::value::Value;

/// The state of a lone expression: no data items and no tasks.
struct Nothing;

impl State for Nothing {
    fn item_value(&self, _: &str) -> Option<Value> {
        None
    }

    fn task_is(&self, _: &str, _: TaskState) -> Option<bool> {
        None
    }
}

/// Reads the lines of `input` and writes the table of types and values.
pub fn write_sheet(input: &[u8], out: &mut impl Write) -> io::Result<()> {
    writeln!(out, "line type value")?;
    let text = input.strip_suffix(b"\n").unwrap_or(input);
    if input.is_empty() {
        return Ok(());
    }
    for (index, line) in text.split(|byte| *byte == b'\n').enumerate() {
        writeln!(out, "{} {}", index + 1, answer(line))?;
    }
    Ok(())
}

/// The type and value of a line, or its refusal's number.
pub fn answer(line: &[u8]) -> String {
    match load::expression(line) {
        Ok((outermost, its_type)) => {
            format!("{its_type} {}", evaluate(&outermost.expression, &Nothing))
        }
        Err(refusal) => format!("refused {}", refusal.reason.number()),
    }
}
