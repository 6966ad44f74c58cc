//! The public calls, on small guidelines worked out by hand.

use plain::rows::{property, DATA_ITEM, TASK};
use plain::season::{bench_load, bench_season, series, GUIDELINE};
use plain::terms::TaskState;
use plain::value::Value;
use plain::{load, Ending, Given, Reason, Row, Run, Session};

fn quiet(cycles: u64) -> Run {
    Run { ending: Ending::Quiet, cycles }
}

/// The example of docs/REPLAY.md.
#[test]
fn a_root_alone_starts_and_completes() {
    let mut guideline = load(b"plan :: a; end plan.").unwrap();
    assert_eq!(guideline.run(1, 1_024), Ok(Run { ending: Ending::Bounded, cycles: 1 }));
    assert_eq!(guideline.row(TASK, 0, property::STATE), Some(Row::State(TaskState::InProgress)));
    assert_eq!(guideline.run(256, 1_024), Ok(quiet(1)));
    assert_eq!(guideline.confirm(1), Err(Reason::NoComponent.of_call()));
}

#[test]
fn two_and_two_point_nought_collide() {
    let text = b"plan :: p; postcondition :: d = 2 and d = 2.0; end plan.
                 data :: d; type :: real; end data.";
    let mut guideline = load(text).unwrap();
    assert_eq!(guideline.run(256, 1_024), Ok(Run { ending: Ending::Exception, cycles: 2 }));
    assert_eq!(guideline.row(DATA_ITEM, 0, property::VALUE), Some(Row::Value(&Value::Unknown)));
    assert_eq!(guideline.set_time(1), Err(Reason::NothingRuns.of_call()));
}

#[test]
fn calls_test_8_and_9_before_6() {
    let text = b"plan :: p; end plan. data :: d; type :: integer; end data.";
    let mut guideline = load(text).unwrap();
    assert_eq!(guideline.add(1, &Given::Real(1)), Err(Reason::NoComponent.of_call()));
    assert_eq!(guideline.add(0, &Given::Real(i64::MAX)), Err(Reason::Kind.of_call()));
    assert_eq!(guideline.add(0, &Given::Integer(2_000_001)), Err(Reason::Limit.of_call()));
    assert_eq!(guideline.add(0, &Given::Unknown), Ok(()));
}

#[test]
fn load_tests_each_number_over_the_whole_text() {
    let refusal = |text: &str| load(text.as_bytes()).map(|_| ()).unwrap_err();
    assert_eq!(refusal(""), Reason::Grammar.at(0));
    assert_eq!(refusal("plan :: p; goal :: 1; end plan"), Reason::Grammar.at(30));
    assert_eq!(refusal("plan :: p; precondition :: abs(1) > 0; end plan."), Reason::LeftOut.at(27));
    assert_eq!(refusal("plan :: p; component :: q; end plan."), Reason::Names.at(24));
    assert_eq!(refusal("plan :: p; precondition :: 1 + a > 0; end plan."), Reason::Types.at(27));
    assert_eq!(refusal("plan :: p; precondition :: 3-2 > 0; end plan."), Reason::Grammar.at(28));
    let minuses = format!("plan :: p; precondition :: {} 1 > 0; end plan.", "- ".repeat(4_000));
    assert_eq!(refusal(&minuses), Reason::Limit.at(27));
}

#[test]
fn a_refused_load_leaves_nothing() {
    let mut session = Session::default();
    assert_eq!(session.load(b"plan :: a; end plan."), Ok(()));
    assert_eq!(session.load(b"!"), Err(Reason::Lexical.at(0)));
    assert_eq!(session.run(1, 1_024), Err(Reason::NothingRuns.of_call()));
    assert_eq!(session.row(0, 0, 0), Err(Reason::NothingRuns.of_call()));
}

#[test]
fn a_season_is_the_same_every_time_and_completes_visits() {
    let mut session = Session::default();
    assert_eq!(bench_load(&mut session, GUIDELINE, 3).calls, 3);
    let visits = series(7, 40);
    let first = bench_season(&mut session, GUIDELINE, &visits);
    let again = bench_season(&mut Session::default(), GUIDELINE, &visits);
    assert_eq!((first.digest, first.cycles), (again.digest, again.cycles));
    let Ok(Some(Row::Value(Value::Number(visited)))) = session.row(DATA_ITEM, 18, property::VALUE) else {
        panic!("no visit was completed");
    };
    assert!(visited.compared(plain::number::Number::Integer(20)).is_gt());
}
