//! Timing: loading a text many times, and a season of visits to a farm. Any
//! engine can be driven that has the public calls, so that one can be measured
//! against another: all calls are made up from a seed before the clock starts,
//! and what is answered goes into a digest that two engines must agree on.

use std::time::{Duration, Instant};

use crate::given::Given;
use crate::guideline::{Ending, Run};
use crate::random::Random;
use crate::refusal::Refusal;
use crate::rows::{property, Row, TASK};
use crate::session::Session;
use crate::terms::TaskState;

/// A guideline of 32 tasks whose plan `visit` starts anew with each trigger.
pub const GUIDELINE: &[u8] = include_bytes!("../season.pf");
/// The tasks of that guideline, by number.
const TASKS: usize = 32;
/// Its actions, which are confirmed.
const ACTIONS: [usize; 19] = [6, 7, 9, 10, 11, 13, 14, 15, 16, 19, 20, 21, 22, 24, 25, 28, 29, 30, 31];
/// Its data items that enquiries ask for, by number.
const FLOCK: usize = 0;
const WATER: [usize; 4] = [2, 3, 4, 5];
const RAIN: usize = 6;
const COUNTS: usize = 7;
const GROUND: usize = 8;
const WEIGHTS: usize = 9;
/// How often the actions are confirmed on a visit; enough for its longest way.
const ROUNDS: usize = 12;
/// The rows lent to a run, and its bound.
const LENT: u64 = 1_024;
const BOUND: u64 = 256;

/// The public calls, answered in numbers: 0 for done, a refusal's number, and
/// of a run and a state as below.
pub trait Engine {
    fn load(&mut self, text: &[u8]) -> u64;
    /// The cycles enacted, and 1,000 for quiet, 2,000 for bounded or 3,000 for
    /// exception.
    fn run(&mut self, bound: u64, lent: u64) -> u64;
    fn set_time(&mut self, seconds: u64) -> u64;
    fn confirm(&mut self, task: usize) -> u64;
    fn add(&mut self, item: usize, value: &Given) -> u64;
    fn trigger(&mut self, trigger: &[u8]) -> u64;
    /// 1 dormant, 2 in progress, 3 discarded, 4 completed; 0 if there is none.
    fn state(&mut self, task: usize) -> u64;
}

/// One call of a series.
#[derive(Clone, Debug)]
pub enum Call {
    Run,
    Time(u64),
    Confirm(usize),
    Add(usize, Given),
    Trigger,
}

/// A visit: its values, runs and confirms.
pub type Series = Vec<Call>;

/// What was measured.
#[derive(Clone, Copy, Debug, PartialEq, Eq)]
pub struct Timing {
    pub elapsed: Duration,
    pub calls: u64,
    /// Cycles enacted.
    pub cycles: u64,
    /// The answers; the same for every engine that answers alike.
    pub digest: u64,
}

/// The trigger that starts a visit.
pub const TRIGGER: &[u8] = b"visit";

/// Loads a text so many times.
pub fn bench_load(engine: &mut impl Engine, text: &[u8], times: usize) -> Timing {
    let mut timing = Timing { elapsed: Duration::ZERO, calls: 0, cycles: 0, digest: 1 };
    let begin = Instant::now();
    for _ in 0..times {
        let answer = engine.load(text);
        timing.take(answer);
    }
    timing.elapsed = begin.elapsed();
    timing
}

/// Loads the guideline, and then times all the series on it.
pub fn bench_season(engine: &mut impl Engine, guideline: &[u8], series: &[Series]) -> Timing {
    let mut timing = Timing { elapsed: Duration::ZERO, calls: 0, cycles: 0, digest: engine.load(guideline) };
    let begin = Instant::now();
    for one in series {
        for call in one {
            let answer = answer(engine, call);
            timing.cycles += answer % 1_000 * u64::from(matches!(call, Call::Run));
            timing.take(answer);
        }
        for task in 0..TASKS {
            let state = engine.state(task);
            timing.take(state);
        }
    }
    timing.elapsed = begin.elapsed();
    timing
}

impl Timing {
    fn take(&mut self, answer: u64) {
        self.calls += 1;
        self.digest = (self.digest ^ answer).wrapping_mul(0x0000_0100_0000_01b3).rotate_left(5);
    }
}

fn answer(engine: &mut impl Engine, call: &Call) -> u64 {
    match call {
        Call::Run => engine.run(BOUND, LENT),
        Call::Time(seconds) => engine.set_time(*seconds),
        Call::Confirm(task) => engine.confirm(*task),
        Call::Add(item, value) => engine.add(*item, value),
        Call::Trigger => engine.trigger(TRIGGER),
    }
}

/// The series of a season, made up from a seed.
pub fn series(seed: u64, count: usize) -> Vec<Series> {
    let mut random = Random::new(seed);
    (0..count).map(|number| visit(number as u64, &mut random)).collect()
}

/// A visit: a day later it is triggered, its first enquiries are answered, and
/// then most actions are confirmed, round by round.
fn visit(number: u64, random: &mut Random) -> Series {
    let mut calls = vec![Call::Time(number * 86_400 + random.below(40_000))];
    if number == 0 {
        calls.extend([Call::Run, Call::Add(FLOCK, Given::Integer(120))]);
    }
    calls.extend([Call::Run, Call::Trigger, Call::Run]);
    calls.extend(WATER.map(|item| Call::Add(item, water(random))));
    calls.push(Call::Add(RAIN, Given::Integer(random.below(4) as i64)));
    calls.push(Call::Add(COUNTS, counts(random)));
    calls.push(Call::Add(GROUND, ground(random)));
    calls.push(Call::Run);
    for _ in 0..ROUNDS {
        let confirmed = ACTIONS.iter().filter(|_| random.below(8) > 0);
        calls.extend(confirmed.map(|task| Call::Confirm(*task)));
        calls.push(Call::Add(WEIGHTS, weights(random)));
        calls.push(Call::Add(WATER[0], water(random)));
        calls.push(Call::Run);
    }
    calls
}

/// Up to 15 centimetres; now and then nobody could read the gauge.
fn water(random: &mut Random) -> Given {
    match random.below(32) {
        0 => Given::Unknown,
        _ => Given::Real(random.below(15_000) as i64),
    }
}

fn counts(random: &mut Random) -> Given {
    Given::List((0..random.below(9)).map(|_| Given::Integer(random.below(12) as i64)).collect())
}

fn ground(random: &mut Random) -> Given {
    let grounds: [&[u8]; 4] = [b"mud", b"Bog", b"wet grass", b"dry grass"];
    Given::Text(grounds[random.below(4) as usize].to_vec())
}

fn weights(random: &mut Random) -> Given {
    let weight = |_| Given::Real(20_000 + 500 * random.below(80) as i64);
    Given::List((0..5).map(weight).collect())
}

/// This crate's engine, as the season drives it.
impl Engine for Session {
    fn load(&mut self, text: &[u8]) -> u64 {
        number(Session::load(self, text))
    }

    fn run(&mut self, bound: u64, lent: u64) -> u64 {
        let ending = |run: Run| match run.ending {
            Ending::Quiet => 1_000,
            Ending::Bounded => 2_000,
            Ending::Exception => 3_000,
        };
        match Session::run(self, bound, lent) {
            Ok(run) => ending(run) + run.cycles,
            Err(refusal) => number(Err(refusal)),
        }
    }

    fn set_time(&mut self, seconds: u64) -> u64 {
        number(Session::set_time(self, seconds))
    }

    fn confirm(&mut self, task: usize) -> u64 {
        number(Session::confirm(self, task))
    }

    fn add(&mut self, item: usize, value: &Given) -> u64 {
        number(Session::add(self, item, value))
    }

    fn trigger(&mut self, trigger: &[u8]) -> u64 {
        number(Session::trigger(self, trigger))
    }

    fn state(&mut self, task: usize) -> u64 {
        match self.row(TASK, task, property::STATE) {
            Ok(Some(Row::State(TaskState::Dormant))) => 1,
            Ok(Some(Row::State(TaskState::InProgress))) => 2,
            Ok(Some(Row::State(TaskState::Discarded))) => 3,
            Ok(Some(Row::State(TaskState::Completed))) => 4,
            _ => 0,
        }
    }
}

/// 0 for done, or the refusal's number.
fn number(answered: Result<(), Refusal>) -> u64 {
    answered.map_or_else(|refusal| refusal.reason as u64, |()| 0)
}
