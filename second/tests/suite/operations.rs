//! 8.5: every row that an operation asks for. A row is told by the numbers of
//! its kind, component and property.

use crate::hand::{family, Hand, C, P, ROOT};
use second::component::{Component, Property};
use second::engine::Engine;
use second::guideline::TaskState::{Completed, Dormant, InProgress};
use second::number::Number;
use second::tables::RowValue;
use second::value::Value;

#[test]
fn initialise_a_plan_or_an_enquiry() {
    let rows = ["0 1 6 dormant", "0 1 12 b0", "0 1 18 i0", "0 1 19 u", "0 1 24 u"];
    assert_eq!(family("", "", "", "").asked(P, Engine::initialise), rows);
    let text = "plan::root;component::q;end plan.enquiry::q;caption::c;source::x;end enquiry.\
                data::x;type::text;end data.";
    assert_eq!(Hand::of(text).asked(1, Engine::initialise), rows, "no captions, no sources");
}

#[test]
fn initialise_an_action() {
    let rows = ["0 4 6 dormant", "0 4 12 b0", "0 4 18 i0", "0 4 19 u", "0 4 24 u", "0 4 40 u"];
    assert_eq!(family("", "", "", "caption::c;").asked(C, Engine::initialise), rows);
}

#[test]
fn start_counts_only_where_a_count_is_there() {
    let fresh = family("", "", "", "").time(7);
    assert_eq!(fresh.asked(ROOT, Engine::start), ["0 0 6 in_progress", "0 0 17 b0", "0 0 24 u", "0 0 29 @7"]);
    let counted = fresh.row(Component::task(P), Property::CycleCount, RowValue::integer(4));
    let rows = ["0 1 6 in_progress", "0 1 17 b0", "0 1 18 i5", "0 1 24 u", "0 1 29 @7"];
    assert_eq!(counted.asked(P, Engine::start), rows);
}

#[test]
fn start_an_action() {
    let triggered = family("", "", "", "trigger::rain;").truth(C, Property::TriggerActive, true);
    let rows = ["0 4 6 in_progress", "0 4 17 b0", "0 4 24 u", "0 4 29 @4294967295", "0 4 40 u"];
    assert_eq!(triggered.time(u32::MAX).asked(C, Engine::start), rows, "trigger_active stays");
}

/// An enquiry with sources for x, y, and x again.
const ENQUIRY: &str =
    "plan::root;component::q;end plan.enquiry::q;source::x;source::y;source::x;end enquiry.\
    data::y;type::text;end data.data::x;type::text;end data.";

#[test]
fn start_an_enquiry_requests_its_items() {
    let own = ["0 1 6 in_progress", "0 1 17 b0", "0 1 24 u", "0 1 29 @0"];
    let rows = |items: &[&'static str]| [&own[..], items].concat();
    let fresh = Hand::of(ENQUIRY);
    assert_eq!(fresh.asked(1, Engine::start), rows(&["1 0 50 b1", "1 1 50 b1"]), "a set: x comes once");
    assert_eq!(fresh.requested(0, true).asked(1, Engine::start), rows(&["1 1 50 b1"]), "y is requested");
    assert_eq!(fresh.requested(0, false).asked(1, Engine::start), rows(&["1 0 50 b1", "1 1 50 b1"]));
}

#[test]
fn discard_a_task() {
    let rows = ["0 4 6 discarded", "0 4 30 @12"];
    assert_eq!(family("", "", "", "caption::c;").time(12).asked(C, Engine::discard), rows);
}

#[test]
fn complete_a_task() {
    let rows = ["0 4 6 completed", "0 4 24 u", "0 4 31 @3"];
    assert_eq!(family("", "", "", "").time(3).asked(C, Engine::complete), rows);
}

#[test]
fn complete_assigns_against_the_old_table() {
    let swaps = family("", "", "", "postcondition::y=x and X=x+1 and y=2.0 and y=0.5*4;");
    let known = swaps.row(
        Component::data_item(0),
        Property::Value,
        RowValue::Value(Value::Number(Number::Integer(1))),
    );
    let rows = ["0 4 6 completed", "0 4 24 u", "0 4 31 @0", "1 0 42 i2", "1 1 42 i1", "1 1 42 r2000"];
    assert_eq!(known.asked(C, Engine::complete), rows, "y is asked for twice as 2.000, once as 1");
    let rows = ["0 4 6 completed", "0 4 24 u", "0 4 31 @0", "1 0 42 u", "1 1 42 r2000", "1 1 42 u"];
    assert_eq!(swaps.asked(C, Engine::complete), rows, "x has no value");
}

#[test]
fn complete_sets_a_start_time_if_it_cycles() {
    let task = Component::task(C);
    let more = family("", "", "", "").row(task, Property::CycleCount, RowValue::integer(1)).row(
        task,
        Property::NbrCyclesValue,
        RowValue::integer(2),
    );
    assert_eq!(more.time(8).asked(C, Engine::complete), ["0 4 6 completed", "0 4 24 @8", "0 4 31 @8"]);
}

#[test]
fn review_takes_the_first_that_fits() {
    let state = |hand: &Hand| hand.asked(C, Engine::review).first().cloned();
    let running = family("", "", "", "").state(ROOT, InProgress).state(P, InProgress);
    assert_eq!(state(&running), Some("0 4 6 in_progress".to_string()));
    assert_eq!(state(&running.state(C, InProgress)), None, "do nothing");
    let confirmed = running.state(C, InProgress).truth(C, Property::Confirmed, true);
    assert_eq!(state(&confirmed), Some("0 4 6 completed".to_string()));
    let ends = |c: &str| family("", "terminate::1=1;", "", c).state(ROOT, InProgress).state(P, InProgress);
    let confirmed = ends("").state(C, InProgress).truth(C, Property::Confirmed, true);
    assert_eq!(state(&confirmed), Some("0 4 6 discarded".to_string()), "discard before complete");
    assert_eq!(
        state(&ends("").state(C, Dormant)),
        Some("0 4 6 in_progress".to_string()),
        "start before discard"
    );
    let again = ends("trigger::t;").state(C, Completed).truth(C, Property::TriggerActive, true);
    let due = again.start_at(C, 0);
    assert!(due.start(C));
    assert_eq!(state(&due), Some("0 4 6 dormant".to_string()), "initialise before start");
}
