//! Answers a batch of scripts of calls (docs/REPLAY.md) by the proved engine: standard input to standard output, as
//! `second replay` does.

mod script;
mod written;

use std::error::Error;
use std::io::{self, Read, Write};

use schotterei::{Change, Guideline, Refusal};

use script::{split, Call};

/// What is in a row of the Changes table before a run.
const FILLED: u32 = 0xdead_beef;
const GARBAGE: Change = Change { component: FILLED, property: FILLED, tag: FILLED, number: FILLED };

fn main() -> Result<(), Box<dyn Error>> {
    let mut batch = Vec::new();
    io::stdin().lock().read_to_end(&mut batch)?;
    let mut out = io::BufWriter::new(io::stdout().lock());
    let mut rest = batch.as_slice();
    while !rest.is_empty() {
        let (length, behind) = split(rest, 4).ok_or("a length is cut off")?;
        let length = u32::from_be_bytes(length.try_into()?) as usize;
        let (script, behind) = split(behind, length).ok_or("a script is cut off")?;
        out.write_all(answers(script)?.as_bytes())?;
        rest = behind;
    }
    Ok(out.flush()?)
}

/// The answers to a whole script, and the line that ends them.
fn answers(script: &[u8]) -> Result<String, String> {
    let mut guideline = Guideline::empty();
    let mut answers = String::new();
    for call in script::calls(script)? {
        let answer = answer(&mut guideline, &call);
        answers.push_str(
            &answer.unwrap_or_else(|Refusal { number, place }| format!("refused {number} {place}")),
        );
        answers.push('\n');
    }
    Ok(answers + "--\n")
}

/// The answer to one call: a line, or many for all rows.
fn answer(guideline: &mut Guideline, call: &Call) -> Result<String, Refusal> {
    let done = |()| "done".to_string();
    match call {
        Call::Load(text) => guideline.reload(text).map(|()| "loaded".to_string()),
        Call::Run(bound, lent) => {
            let mut changes = vec![GARBAGE; *lent];
            guideline.run_with(*bound, &mut changes).map(written::run)
        }
        Call::Time(seconds) => guideline.set_time(*seconds).map(done),
        Call::Confirm(task) => guideline.confirm(*task).map(done),
        Call::Add(item, value) => guideline.add(*item, value).map(done),
        Call::Trigger(name) => guideline.trigger(name).map(done),
        Call::Row(component, property) => {
            let row = guideline.read(*component, *property)?;
            Ok(row.map_or("none".to_string(), |row| written::row(&row)))
        }
        Call::Rows => written::rows(guideline),
    }
}
