//! The command line: each command reads a batch on standard input and writes
//! its answers to standard output.

use std::error::Error;
use std::io::{self, BufWriter, Read, Write};
use std::process::ExitCode;

use plain::{batch, load, replay};

const USAGE: &str = "usage: plain replay | examine-many";

fn main() -> ExitCode {
    let arguments: Vec<String> = std::env::args().skip(1).collect();
    let mut out = BufWriter::new(io::stdout().lock());
    let done = run(&arguments, &mut out).and_then(|()| Ok(out.flush()?));
    match done {
        Ok(()) => ExitCode::SUCCESS,
        Err(problem) => {
            eprintln!("{problem}");
            ExitCode::FAILURE
        }
    }
}

fn run(arguments: &[String], out: &mut impl Write) -> Result<(), Box<dyn Error>> {
    let answer = match arguments {
        [command] if command == "replay" => replay::answer_script,
        [command] if command == "examine-many" => examine,
        _ => return Err(USAGE.into()),
    };
    let mut input = Vec::new();
    io::stdin().lock().read_to_end(&mut input)?;
    for text in batch::texts(&input)? {
        answer(text, out)?;
    }
    Ok(())
}

/// `loads`, or the refusal's number and place.
fn examine(text: &[u8], out: &mut impl Write) -> Result<(), Box<dyn Error>> {
    match load(text) {
        Ok(_) => writeln!(out, "loads")?,
        Err(refusal) => writeln!(out, "{refusal}")?,
    }
    Ok(())
}
