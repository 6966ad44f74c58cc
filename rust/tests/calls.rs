//! The public calls through this crate, on guidelines whose answers were worked out by hand.

use schotterei::{property, Change, Ending, Guideline, Reason, Refusal, Row, Scalar, State, Value};

const THREE_PLOTS: &[u8] = include_bytes!("../../examples/guidelines/three_plots.pf");

fn three_plots() -> Guideline {
    Guideline::load(THREE_PLOTS).expect("the example loads")
}

fn state(guideline: &Guideline, task: &[u8]) -> Option<Row> {
    guideline.read(guideline.task(task)?, property::STATE).ok()?
}

fn value(guideline: &Guideline, item: &[u8]) -> Option<Row> {
    guideline.read(guideline.data_item(item)?, property::VALUE).ok()?
}

/// Adds the depths to a guideline that has asked for them, and runs it.
fn answered(depths: &Value) -> Guideline {
    let mut guideline = three_plots();
    guideline.run(256).expect("it runs");
    let item = guideline.data_item(b"depths").expect("there is such an item");
    guideline.add(item.number, depths).expect("they are integers");
    guideline.run(256).expect("it runs");
    guideline
}

#[test]
fn the_shallowest_plot_counts() {
    let mut guideline = answered(&Value::from([12, 3, 15]));
    assert_eq!(state(&guideline, b"dose"), Some(Row::State(State::InProgress)));
    assert_eq!(value(&guideline, b"fluke_risk"), None);
    let dose = guideline.task(b"dose").expect("there is such a task");
    guideline.confirm(dose.number).expect("it is a task");
    let run = guideline.run(256).expect("it runs");
    assert_eq!(run.ending, Ending::Quiet);
    assert_eq!(value(&guideline, b"fluke_risk"), Some(Row::Value(Value::from("high"))));
}

#[test]
fn deep_water_is_no_risk() {
    let guideline = answered(&Value::from([12, 13, 15]));
    assert_ne!(state(&guideline, b"dose"), Some(Row::State(State::InProgress)));
}

#[test]
fn refused_calls_change_nothing() {
    let mut guideline = answered(&Value::from([12, 3, 15]));
    let before: Vec<_> = guideline.rows().expect("it is loaded").collect();
    let refused = |reason: Reason| Err(Refusal { number: reason as u32, place: 0 });
    assert_eq!(guideline.confirm(32), refused(Reason::NoComponent));
    assert_eq!(guideline.add(64, &Value::UNKNOWN), refused(Reason::NoComponent));
    assert_eq!(guideline.add(0, &Value::from("deep")), refused(Reason::WrongType));
    assert_eq!(guideline.add(0, &Value::from([2_000_001])), refused(Reason::Limit));
    assert_eq!(guideline.add(1, &Value::from("x".repeat(64).as_str())), refused(Reason::Limit));
    assert_eq!(guideline.add(0, &(0..17).collect()), refused(Reason::Limit));
    assert_eq!(guideline.set_time(1 << 32), refused(Reason::Limit));
    assert_eq!(guideline.trigger(&[b'x'; 49]), refused(Reason::Limit));
    assert_eq!(guideline.run(257).map(|_| ()), refused(Reason::Limit));
    assert_eq!(guideline.run_with(256, &mut [Change::default(); 1_023]).map(|_| ()), refused(Reason::Limit));
    assert_eq!(guideline.rows().expect("it is loaded").collect::<Vec<_>>(), before);
}

#[test]
fn nothing_runs_where_nothing_is_loaded() {
    let mut guideline = three_plots();
    let refusal = guideline.reload(b"plan :: watch; end pan.").expect_err("it is no guideline");
    assert_eq!((refusal.reason(), refusal.place), (Some(Reason::Grammar), 19));
    let refused = Err(Refusal { number: 7, place: 0 });
    assert_eq!(guideline.run(256).map(|_| ()), refused);
    assert_eq!(guideline.confirm(0), refused);
    assert_eq!(guideline.add(0, &Value::UNKNOWN), refused);
    assert_eq!(guideline.rows().map(|_| ()), refused);
    assert_eq!(guideline.reload(THREE_PLOTS), Ok(()));
    assert_eq!(guideline.time(), 0);
}

#[test]
fn every_kind_of_value_comes_back() {
    let text =
        b"plan :: p; end plan. data :: r; type :: real; end data. data :: t; type :: setof_text; end data.
        data :: s; type :: text; end data.";
    let mut guideline = Guideline::load(text).expect("it loads");
    let texts = Value::List(vec!["mud".into(), Scalar::Unknown, "".into(), "wet grass".into()]);
    for (item, value) in
        [(0, Value::real(-500)), (0, Value::from(7)), (0, Value::UNKNOWN), (1, texts), (2, "bog".into())]
    {
        guideline.add(item, &value).expect("it is of the type");
        let (component, ..) =
            guideline.rows().unwrap().find(|row| row.0.kind == 1 && row.0.number == item).unwrap();
        assert_eq!(guideline.read(component, property::VALUE), Ok(Some(Row::Value(value))));
    }
}

#[test]
fn a_copy_goes_its_own_way() {
    let mut one = three_plots();
    let other = one.clone();
    one.run(256).expect("it runs");
    one.set_time(86_400).expect("it is a time");
    assert_eq!((one.time(), other.time()), (86_400, 0));
    assert_eq!(state(&other, b"ask_depths"), Some(Row::State(State::Dormant)));
}

#[test]
fn the_changes_table_is_blank_afterwards() {
    let mut changes = vec![Change { component: 7, property: 7, tag: 7, number: 7 }; 2_048];
    three_plots().run_with(256, &mut changes).expect("it runs");
    assert!(changes.iter().all(|row| *row == Change::default()));
}

#[test]
fn each_refusal_has_its_sentence() {
    let sentences: Vec<String> = (1..=10).map(|number| Refusal { number, place: 3 }.to_string()).collect();
    assert!(sentences
        .iter()
        .enumerate()
        .all(|(index, told)| told.starts_with(&format!("refused with {}", index + 1))));
    assert!(sentences.windows(2).all(|pair| pair[0] != pair[1]));
    assert_eq!(Refusal { number: 11, place: 0 }.reason(), None);
}
