//! The proved engine and the plain one on the same calls. `time` times them in turn in one run; `only` makes one engine do
//! one work, for a count of its instructions between `versus_measured` and its end.
//!
//! usage: versus time ROUNDS LARGE RESTING FILE.. | versus only proved|plain WORK LARGE RESTING FILE..
//!
//! LARGE is a large guideline, RESTING one that comes to rest; FILE.. are the examples, loaded one after the other. WORK is
//! examples, guideline, season, quiet-1 or quiet-256.

mod proved;
mod work;

use std::error::Error;
use std::fs;
use std::time::Duration;

use plain::Session;

use proved::Proved;
use work::{Work, WORKS};

fn main() -> Result<(), Box<dyn Error>> {
    let words: Vec<String> = std::env::args().skip(1).collect();
    let words: Vec<&str> = words.iter().map(String::as_str).collect();
    match words.as_slice() {
        ["time", rounds, files @ ..] => time(rounds.parse()?, &read(files)?),
        ["only", engine, name, files @ ..] => only(engine, name, &read(files)?),
        _ => Err("usage: versus time ROUNDS FILE.. | versus only ENGINE WORK FILE..".into()),
    }
}

fn read(files: &[&str]) -> Result<Vec<Vec<u8>>, Box<dyn Error>> {
    let texts: Result<Vec<_>, _> = files.iter().map(fs::read).collect();
    Ok(texts?)
}

/// Of each work a line: its name, the proved engine's time and the plain one's in microseconds, and their ratio. In each
/// round one engine works behind the other; the least time of each counts, as other programs only add to it.
fn time(rounds: usize, texts: &[Vec<u8>]) -> Result<(), Box<dyn Error>> {
    let (mut proved, mut plain) = (Proved::default(), Session::default());
    for name in WORKS {
        let work = Work::new(name, texts, work::SERIES).ok_or("no such work")?;
        let (mut one, mut other) = (Duration::MAX, Duration::MAX);
        for _ in 0..rounds {
            let (by_proved, by_plain) = (work.done_by(&mut proved), work.done_by(&mut plain));
            if by_proved.digest != by_plain.digest {
                return Err(format!("{name}: the engines answer differently").into());
            }
            one = one.min(by_proved.elapsed);
            other = other.min(by_plain.elapsed);
        }
        let ratio = one.as_secs_f64() / other.as_secs_f64();
        println!("{name}|{}|{}|{ratio:.2}", one.as_micros(), other.as_micros());
    }
    Ok(())
}

/// One work by one engine, and how often it repeats its calls.
fn only(engine: &str, name: &str, texts: &[Vec<u8>]) -> Result<(), Box<dyn Error>> {
    let work = Work::new(name, texts, work::COUNTED).ok_or("no such work")?;
    let timing = match engine {
        "proved" => work.done_by(&mut Proved::default()),
        "plain" => work.done_by(&mut Session::default()),
        _ => return Err("the engines are proved and plain".into()),
    };
    println!("{:016x}", timing.digest);
    Ok(())
}
