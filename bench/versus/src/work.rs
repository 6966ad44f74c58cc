//! What is timed: loads, a season of visits, and runs that find nothing to do.

use std::hint::black_box;
use std::time::{Duration, Instant};

use plain::season::{bench_load, bench_season, series, Engine, Series, Timing, GUIDELINE};

/// The names of the works.
pub const WORKS: [&str; 5] = ["examples", "guideline", "season", "quiet-1", "quiet-256"];
/// The series of a season: where times are taken, and where instructions are counted.
pub const SERIES: usize = 1_000;
pub const COUNTED: usize = 20;
/// How often a text is loaded, and a guideline run, so that the clock can tell.
const LOADS: usize = 10;
const RUNS: usize = 1_000;
const LENT: u64 = 1_024;
/// A bound that suffices for coming to rest.
const BOUND: u64 = 256;
const SEED: u64 = 1;

pub enum Work {
    /// Each of these texts is loaded.
    Loads(Vec<Vec<u8>>),
    Season(Vec<Series>),
    /// Runs with a bound on this guideline, which has come to rest.
    Quiet(Vec<u8>, u64),
}

impl Work {
    /// The work of this name, over the large guideline, the one that comes to rest, and the examples.
    pub fn new(name: &str, texts: &[Vec<u8>], count: usize) -> Option<Work> {
        let [large, resting, examples @ ..] = texts else { return None };
        match name {
            "examples" => Some(Work::Loads(examples.to_vec())),
            "guideline" => Some(Work::Loads(vec![large.clone()])),
            "quiet-1" => Some(Work::Quiet(resting.clone(), 1)),
            "quiet-256" => Some(Work::Quiet(resting.clone(), 256)),
            "season" => Some(Work::Season(series(SEED, count))),
            _ => None,
        }
    }

    pub fn done_by(&self, engine: &mut impl Engine) -> Timing {
        if let Work::Quiet(text, _) = self {
            engine.load(text);
            engine.run(BOUND, LENT);
        }
        let mut timing = None;
        versus_measured(&mut || timing = Some(self.timed(engine)));
        timing.unwrap_or(NOTHING)
    }

    fn timed(&self, engine: &mut impl Engine) -> Timing {
        match self {
            Work::Loads(texts) => {
                texts.iter().map(|text| bench_load(engine, text, LOADS)).fold(NOTHING, both)
            }
            Work::Season(series) => bench_season(engine, GUIDELINE, series),
            Work::Quiet(_, bound) => runs(engine, *bound),
        }
    }
}

fn runs(engine: &mut impl Engine, bound: u64) -> Timing {
    let begin = Instant::now();
    let digest = (0..RUNS).fold(0, |digest: u64, _| digest.rotate_left(1) ^ engine.run(bound, LENT));
    Timing { elapsed: begin.elapsed(), calls: RUNS as u64, cycles: 0, digest }
}

const NOTHING: Timing = Timing { elapsed: Duration::ZERO, calls: 0, cycles: 0, digest: 0 };

fn both(one: Timing, other: Timing) -> Timing {
    Timing {
        elapsed: one.elapsed + other.elapsed,
        calls: one.calls + other.calls,
        cycles: one.cycles + other.cycles,
        digest: one.digest.rotate_left(1) ^ other.digest,
    }
}

/// A name that callgrind can find: what is counted is what this calls.
#[no_mangle]
#[inline(never)]
pub fn versus_measured(work: &mut dyn FnMut()) {
    black_box(work)();
}
