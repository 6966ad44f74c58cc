//! Times this crate's engine: loads of a guideline and a season of visits.
//! With `script` it writes the season as a batch of one script instead, for
//! `replay` (docs/REPLAY.md), so that other programs can answer it too.
//!
//! usage: timing [SEED [COUNT]] | timing script SEED COUNT

use std::io::{self, Write};

use plain::season::{bench_load, bench_season, series, Call, Timing, GUIDELINE, TRIGGER};
use plain::{Given, Session};

fn main() -> Result<(), Box<dyn std::error::Error>> {
    let words: Vec<String> = std::env::args().skip(1).collect();
    let number = |index: usize, other: u64| words.get(index).map_or(Ok(other), |word| word.parse());
    if words.first().is_some_and(|word| word == "script") {
        return Ok(write_script(number(1, 1)?, number(2, 1_000)? as usize)?);
    }
    let count = number(1, 1_000)? as usize;
    let mut session = Session::default();
    tell("load", bench_load(&mut session, GUIDELINE, count));
    let series = series(number(0, 1)?, count);
    // Once to warm up, once to measure.
    bench_season(&mut session, GUIDELINE, &series);
    tell("season", bench_season(&mut session, GUIDELINE, &series));
    Ok(())
}

fn tell(what: &str, timing: Timing) {
    let Timing { elapsed, calls, cycles, digest } = timing;
    let nanoseconds = elapsed.as_nanos() / u128::from(calls.max(1));
    println!("{what}: {elapsed:?}, {calls} calls at {nanoseconds} ns, {cycles} cycles, digest {digest:016x}");
}

/// The season as a batch of one script; all rows are read after each visit.
fn write_script(seed: u64, count: usize) -> io::Result<()> {
    let mut script = format!("load {}\n", GUIDELINE.len()).into_bytes();
    script.extend_from_slice(GUIDELINE);
    script.push(b'\n');
    for visit in series(seed, count) {
        let lines: Vec<String> = visit.iter().map(line).collect();
        script.extend_from_slice(format!("{}\nrows\n", lines.join("\n")).as_bytes());
    }
    let mut out = io::stdout().lock();
    out.write_all(&(script.len() as u32).to_be_bytes())?;
    out.write_all(&script)
}

fn line(call: &Call) -> String {
    match call {
        Call::Run => "run 256 1024".to_string(),
        Call::Time(seconds) => format!("time {seconds}"),
        Call::Confirm(task) => format!("confirm {task}"),
        Call::Add(item, value) => format!("add {item} {}", written(value)),
        Call::Trigger => format!("trigger {}", hexadecimal(TRIGGER)),
    }
}

fn written(value: &Given) -> String {
    match value {
        Given::Unknown => "u".to_string(),
        Given::Truth(truth) => format!("b{}", u8::from(*truth)),
        Given::Integer(integer) => format!("i{integer}"),
        Given::Real(thousandths) => format!("r{thousandths}"),
        Given::Text(text) => format!("t{}", hexadecimal(text)),
        Given::List(elements) => {
            let elements: Vec<String> = elements.iter().map(written).collect();
            format!("l({})", elements.join(","))
        }
    }
}

fn hexadecimal(bytes: &[u8]) -> String {
    bytes.iter().map(|byte| format!("{byte:02x}")).collect()
}
