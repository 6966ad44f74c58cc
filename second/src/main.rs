//! The command line: each command reads standard input, or makes texts from a
//! seed, and writes to standard output.

use std::io::{self, BufWriter, Read, Write};
use std::process::ExitCode;

use second::generate::{guidelines, lines, scripts, texts};
use second::{batch, examine, replay, sheet, transcript};

const USAGE: &str = "usage: second sheet | examine | examine-many | tokens-many | replay
       second transcript GUIDELINE SCRIPT
       second lines SEED COUNT | guidelines SEED COUNT | texts SEED COUNT | scripts SEED COUNT";

fn main() -> ExitCode {
    let arguments: Vec<String> = std::env::args().skip(1).collect();
    let words: Vec<&str> = arguments.iter().map(String::as_str).collect();
    let mut out = BufWriter::new(io::stdout().lock());
    let done = run(&words, &mut out).and_then(|()| Ok(out.flush()?));
    match done {
        Ok(()) => ExitCode::SUCCESS,
        Err(problem) => {
            eprintln!("{problem}");
            ExitCode::FAILURE
        }
    }
}

type Problem = Box<dyn std::error::Error>;

fn run(words: &[&str], out: &mut impl Write) -> Result<(), Problem> {
    match words {
        ["sheet"] => sheet::write_sheet(&input()?, out)?,
        ["examine"] => writeln!(out, "{}", examine::examine(&input()?))?,
        ["examine-many"] => each_text(out, examine::examine)?,
        ["tokens-many"] => each_text(out, examine::tokens)?,
        ["replay"] => {
            for script in batch::texts(&input()?)? {
                out.write_all(replay::answers(script)?.as_bytes())?;
            }
        }
        ["transcript", guideline, script] => {
            let told = transcript::transcript(&std::fs::read(guideline)?, &std::fs::read(script)?)?;
            out.write_all(told.as_bytes())?;
        }
        [generator, seed, count] => generate(generator, seed.parse()?, count.parse()?, out)?,
        _ => return Err(USAGE.into()),
    }
    Ok(())
}

/// The generators: a line each, or a batch.
fn generate(generator: &str, seed: u64, count: usize, out: &mut impl Write) -> Result<(), Problem> {
    match generator {
        "lines" => {
            for line in lines::lines(seed, count) {
                out.write_all(&line)?;
                out.write_all(b"\n")?;
            }
        }
        "guidelines" => write_batch(guidelines::guidelines(seed, count), out)?,
        "texts" => write_batch(texts::texts(seed, count), out)?,
        "scripts" => {
            let mut scripts = scripts::scripts(seed, count);
            write_batch(scripts.by_ref(), out)?;
            eprint!("{}", scripts.figures);
        }
        _ => return Err(USAGE.into()),
    }
    Ok(())
}

fn write_batch(texts: impl Iterator<Item = Vec<u8>>, out: &mut impl Write) -> io::Result<()> {
    for text in texts {
        batch::write_text(out, &text)?;
    }
    Ok(())
}

/// All of standard input.
fn input() -> io::Result<Vec<u8>> {
    let mut bytes = Vec::new();
    io::stdin().lock().read_to_end(&mut bytes)?;
    Ok(bytes)
}

/// One line for each text of the batch on standard input.
fn each_text(out: &mut impl Write, answer: fn(&[u8]) -> String) -> Result<(), Problem> {
    for text in batch::texts(&input()?)? {
        writeln!(out, "{}", answer(text))?;
    }
    Ok(())
}
