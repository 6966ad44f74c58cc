//! Scripts: their form, and the worked ones of the examples.

use std::fs;
use std::path::Path;

use crate::replayed;
use second::component::Property;
use second::given::Given;
use second::replay::answers;
use second::script::{calls, written, Call};
use second::transcript::transcript;

#[test]
fn every_call_is_read_and_written() {
    let script =
        b"load 3\na\nb\nrun 256 1024\ntime 4294967296\nconfirm 4294967295\nadd 0 u\nadd 1 b0\nadd 1 b1\n\
        add 2 i-12\nadd 3 r-500\nadd 4 t\nadd 5 t00ff\nadd 6 l()\nadd 7 l(i1,u,t61,b1,r1)\ntrigger -\n\
        trigger 6a\nrow 0 1 2\nrows\nload 0\n\n";
    let list =
        vec![Given::Integer(1), Given::Unknown, Given::Text(vec![0x61]), Given::Truth(true), Given::Real(1)];
    let expected = vec![
        Call::Load(b"a\nb".to_vec()),
        Call::Run { bound: 256, lent: 1024 },
        Call::Time(4_294_967_296),
        Call::Confirm(4_294_967_295),
        Call::Add(0, Given::Unknown),
        Call::Add(1, Given::Truth(false)),
        Call::Add(1, Given::Truth(true)),
        Call::Add(2, Given::Integer(-12)),
        Call::Add(3, Given::Real(-500)),
        Call::Add(4, Given::Text(vec![])),
        Call::Add(5, Given::Text(vec![0, 255])),
        Call::Add(6, Given::List(vec![])),
        Call::Add(7, Given::List(list)),
        Call::Trigger(vec![]),
        Call::Trigger(vec![0x6a]),
        Call::Row(0, 1, 2),
        Call::Rows,
        Call::Load(vec![]),
    ];
    assert_eq!(calls(script), Ok(expected.clone()));
    assert_eq!(written(&expected), script);
}

#[test]
fn other_texts_are_no_scripts() {
    for script in [
        "rows", "row 0 0\n", "run 1\n", "run -1 1024\n", "load 5\nab\n", "load 1\nab\n", "add 0 x\n",
        "add 0 \n", "add 0 b2\n", "add 0 t6\n", "add 0 tg0\n", "add 0 l(i1\n", "trigger 6\n", "stop\n", "\n",
        "rows \n",
    ] {
        assert!(calls(script.as_bytes()).is_err(), "for the script {script}");
    }
    assert_eq!(calls(b""), Ok(vec![]));
    assert_eq!(answers(b""), Ok("--\n".to_string()));
}

/// docs/REPLAY.md ends with this script.
#[test]
fn the_example_of_the_document() {
    let script = b"load 20\nplan :: a; end plan.\nrun 1 1024\nrow 0 0 6\nrun 256 1024\nconfirm 1\n";
    let expected = "loaded\nbounded 1\nin_progress\nquiet 1\nrefused 8 0\n--\n";
    assert_eq!(answers(script), Ok(expected.to_string()));
}

/// The numbers of all properties are those that docs/REPLAY.md lists.
#[test]
fn the_document_lists_every_property() {
    let document = include_str!("../../../docs/REPLAY.md");
    for property in [
        Property::Class,
        Property::State,
        Property::Confirmed,
        Property::CycleCount,
        Property::StartAt,
        Property::Context,
        Property::InProgressTime,
        Property::AbortCondition,
        Property::Candidates,
        Property::ActualProcedure,
        Property::Type,
        Property::Requested,
        Property::Recommendation,
        Property::DataItem,
        Property::Activated,
    ] {
        assert!(document.contains(&format!("| {} | {property} |", property as usize)), "{property}");
    }
}

#[test]
fn rows_by_kind_component_and_property() {
    let text = "plan::r;end plan.data::b;type::text;end data.data::a;type::time;end data.";
    let expected = "0 0 0 plan\n0 0 6 dormant\n1 0 0 data_item\n1 0 1 t62\n1 0 41 text\n\
        1 1 0 data_item\n1 1 1 t61\n1 1 41 time\ntime 0\nflag 0\n.\n";
    assert_eq!(replayed(text, "rows\n"), expected);
}

/// Each kind of value in a row, and each ends its own line.
#[test]
fn values_in_rows() {
    let text = "plan::r;component::a;end plan.action::a;end action.data::t;type::text;end data.\
        data::s;type::setof_real;end data.data::d;type::datetime;end data.";
    let calls = "add 0 t0a7f\nrow 1 0 42\nadd 0 t\nrow 1 0 42\nadd 1 l(r-500,u,i-3)\nrow 1 1 42\n\
        add 2 r-2000000000\nrow 1 2 42\nrow 1 2 41\ntime 4000000000\nrun 1 1024\nrow 0 0 29\nrow 0 1 15\n";
    let expected = "done\nt0a7f\ndone\nt\ndone\nl(r-500,u,i-3)\ndone\nr-2000000000\ndatetime\ndone\n\
        bounded 1\n@4000000000\n#0.0\n";
    assert_eq!(replayed(text, calls), expected);
}

/// Every script of the examples answers what was worked out by hand for it.
#[test]
fn the_worked_scripts() {
    let folder = Path::new(env!("CARGO_MANIFEST_DIR")).join("../examples/scripts");
    let mut scripts = 0;
    for entry in fs::read_dir(folder).expect("the examples are there") {
        let path = entry.expect("it can be read").path();
        if path.extension().is_some_and(|extension| extension == "script") {
            let script = fs::read(&path).expect("it can be read");
            let expected = fs::read_to_string(path.with_extension("answers")).expect("it has answers");
            assert_eq!(answers(&script), Ok(expected), "for {}", path.display());
            scripts += 1;
        }
    }
    assert!(scripts >= 13);
}

/// A task that starts, is confirmed, and collides with itself.
const TOLD: &str = "\
> load 108
  loaded
> run 2 1024
  cycle 1, at 0 s
    initialised: task 1 (a)
    started: task 0 (the root)
      task 0 (the root), state: dormant -> in_progress
      task 0 (the root), confirmed: no row -> false
      task 0 (the root), start_at: no row -> unknown
      task 0 (the root), in_progress_time: no row -> 0 s
      task 1 (a), state: dormant -> dormant
      task 1 (a), trigger_active: no row -> false
      task 1 (a), cycle_count: no row -> 0
      task 1 (a), nbr_cycles_value: no row -> unknown
      task 1 (a), start_at: no row -> unknown
      task 1 (a), actual_procedure: no row -> unknown
  cycle 2, at 0 s
    started: task 1 (a)
      task 1 (a), state: dormant -> in_progress
      task 1 (a), confirmed: no row -> false
      task 1 (a), cycle_count: 0 -> 1
      task 1 (a), start_at: unknown -> unknown
      task 1 (a), in_progress_time: no row -> 0 s
      task 1 (a), actual_procedure: unknown -> unknown
  quiet 2
> confirm 1
  done
> run 256 1024
  cycle 1, at 0 s
    completed: task 1 (a)
      task 1 (a), state: in_progress -> completed
      task 1 (a), start_at: unknown -> unknown
      task 1 (a), completed_time: no row -> 0 s
      item 0 (x), value: no row -> unknown, as 2 and 2.000 collide: an exception
  exception 1
> time 1
  refused 7 0
";

#[test]
fn a_transcript_tells_each_cycle() {
    let guideline = b"plan::r;component::a;end plan.action::a;postcondition::x=2 and x=2.0;end action.\
        data::x;type::real;end data.";
    let script = b"run 2 1024\nconfirm 1\nrun 256 1024\ntime 1\n";
    assert_eq!(transcript(guideline, script), Ok(TOLD.to_string()));
}

#[test]
fn a_transcript_tells_the_table() {
    let script = b"rows\nrow 0 0 6\n";
    let expected = "> load 19\n  loaded\n> rows\n  task 0 (the root), class: plan\n  \
        task 0 (the root), state: dormant\n  engine time 0 s, Exception flag not set\n> row 0 0 6\n  dormant\n";
    assert_eq!(transcript(b"plan :: a;end plan.", script), Ok(expected.to_string()));
    assert_eq!(
        transcript(b"", b"rows\n"),
        Ok("> load 0\n  refused 3 0\n> rows\n  refused 7 0\n".to_string())
    );
}
