//! What the scripts of a generator came to.

use std::collections::BTreeMap;
use std::fmt;

use crate::script::Call;

/// Counts of calls and of their answers.
#[derive(Clone, Debug, Default)]
pub struct Figures {
    pub scripts: usize,
    pub calls: usize,
    pub runs: usize,
    /// Runs that enact a cycle.
    pub enacting: usize,
    /// Runs that end in an exception.
    pub exceptions: usize,
    /// How often each call got each answer, numbers and rows left away.
    pub answers: BTreeMap<String, usize>,
}

impl Figures {
    /// Counts a call and its answer.
    pub fn count(&mut self, call: &Call, answer: &str) {
        let words: Vec<&str> = answer.split_whitespace().collect();
        let (call, shown) = match (call, &words[..]) {
            (call, ["refused", number, _]) => (name(call), format!("refused {number}")),
            (Call::Row(..), [value]) if *value != "none" => ("row", "a value".to_string()),
            (Call::Rows, _) => ("rows", "all".to_string()),
            (call, words) => (name(call), words[0].to_string()),
        };
        *self.answers.entry(format!("{call}: {shown}")).or_insert(0) += 1;
        self.calls += 1;
        if call == "run" {
            self.runs += 1;
            self.enacting += usize::from(words[0] != "refused" && words[1] != "0");
            self.exceptions += usize::from(words[0] == "exception");
        }
    }
}

fn name(call: &Call) -> &'static str {
    match call {
        Call::Load(_) => "load",
        Call::Run { .. } => "run",
        Call::Time(_) => "time",
        Call::Confirm(_) => "confirm",
        Call::Add(..) => "add",
        Call::Trigger(_) => "trigger",
        Call::Row(..) => "row",
        Call::Rows => "rows",
    }
}

impl fmt::Display for Figures {
    fn fmt(&self, out: &mut fmt::Formatter) -> fmt::Result {
        let share = |part: usize| 100.0 * part as f64 / self.runs.max(1) as f64;
        writeln!(out, "{} scripts, {} calls, {} runs", self.scripts, self.calls, self.runs)?;
        writeln!(out, "runs that enact a cycle: {} ({:.1} %)", self.enacting, share(self.enacting))?;
        writeln!(
            out,
            "runs that end in an exception: {} ({:.1} %)",
            self.exceptions,
            share(self.exceptions)
        )?;
        for (answer, times) in &self.answers {
            writeln!(out, "{answer}: {times}")?;
        }
        Ok(())
    }
}
